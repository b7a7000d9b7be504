/* Writes random modules, each of which is valid. It fills the body of their one function with random operators, and
 * attempts each before it appends it. So the generator knows no rule of any operator.
 *
 *     generate SEED COUNT FOLDER
 *
 * writes FOLDER/0.wasm and so on, checks each once more as a whole, and ends with status 1 if one isn't valid.
 *
 *     cc generate.c $(pkg-config --cflags --libs tansyattic)
 */
#include <tansyattic.h>

#include <stdio.h>
#include <stdlib.h>
#include <string.h>

enum { OPERATORS = 40, ATTEMPTS = 100000, ROOM = 1 << 14, OPERATOR_ROOM = 16 };

/* The proposals of the standard's version 2.0, which each engine takes, without the vector operators. */
#define PROPOSALS \
    (TANSYATTIC_FEATURE_MULTI_VALUE | TANSYATTIC_FEATURE_FLOATS | TANSYATTIC_FEATURE_REFERENCE_TYPES | \
     TANSYATTIC_FEATURE_BULK_MEMORY | TANSYATTIC_FEATURE_SIGN_EXTENSION | \
     TANSYATTIC_FEATURE_SATURATING_FLOAT_TO_INT | TANSYATTIC_FEATURE_MUTABLE_GLOBAL)

/* What each module declares: two function types, a function of the first, a memory and two globals. */
static const uint8_t declared[] = {
    0, 'a', 's', 'm', 1, 0, 0, 0,
    1, 14, 2, 0x60, 4, 0x7f, 0x7e, 0x7d, 0x7c, 1, 0x7f, /* (func (param i32 i64 f32 f64) (result i32)) */
    0x60, 1, 0x7f, 1, 0x7f,                             /* (func (param i32) (result i32)) */
    3, 2, 1, 0,
    5, 3, 1, 0, 1,
    6, 11, 2, 0x7f, 1, 0x41, 0, 0x0b, 0x7e, 0, 0x42, 0, 0x0b, /* (global (mut i32)) (global i64) */
};

/* A body that is being written, and the function that says what may stand in it. */
struct body {
    struct tansyattic_function function;
    size_t length;
    uint8_t bytes[ROOM];
};

static uint64_t state;

/* A number at random, below this one. */
static uint8_t below(unsigned bound) {
    state = state * 6364136223846793005u + 1442695040888963407u;
    return (uint8_t)((state >> 33) % bound);
}

/* Appends the operator that these bytes begin with, if it may stand here. */
static bool append(struct body *body, const uint8_t *bytes, size_t length) {
    struct tansyattic_verdict verdict;
    size_t taken;
    if (length > ROOM - body->length) return false;
    if (tansyattic_try_op(&body->function, bytes, length, body->length, &taken, NULL, 0, &verdict) != TANSYATTIC_VALID)
        return false;
    memcpy(body->bytes + body->length, bytes, taken);
    body->length += taken;
    return true;
}

static bool append_byte(struct body *body, uint8_t code) { return append(body, &code, 1); }

/* Attempts an operator at random: any code of one byte or of 0xfc, with immediates that often name something. The `end`
 * of the function comes last. */
static bool append_any(struct body *body) {
    static const uint8_t block_types[] = {0, 1, 0x40, 0x40, 0x7c, 0x7d, 0x7e, 0x7f};
    uint8_t bytes[OPERATOR_ROOM];
    bytes[0] = below(16) != 0 ? below(0xd3) : 0xfc;
    for (size_t i = 1; i < OPERATOR_ROOM; i++) bytes[i] = below(4);
    if (bytes[0] == 0xfc) bytes[1] = below(18);
    if (bytes[0] >= 0x02 && bytes[0] <= 0x04) bytes[1] = block_types[below(sizeof block_types)];
    if (bytes[0] == 0x0b && tansyattic_frames(&body->function) == 1) return false;
    return append(body, bytes, sizeof bytes);
}

/* Appends a constant of the type that the frame gives, if it gives one. The function types above give an i32. */
static void append_result(struct body *body, const struct tansyattic_frame *frame) {
    uint8_t constant[9] = {0x41};
    if (frame->block_kind == TANSYATTIC_BLOCK_EMPTY) return;
    if (frame->block_kind == TANSYATTIC_BLOCK_VALUE)
        constant[0] = (uint8_t)(0x41 + TANSYATTIC_TYPE_I32 - frame->block_type.code);
    append(body, constant, sizeof constant);
}

/* Closes the innermost frame, or begins its part behind `else`: its operands are dropped, unless they fit. */
static bool close_frame(struct body *body) {
    struct tansyattic_frame frame;
    if (append_byte(body, 0x0b)) return true;
    if (tansyattic_frame(&body->function, 0, &frame) == 0) return false;
    while (tansyattic_operands(&body->function) > frame.height)
        if (!append_byte(body, 0x1a)) return false;
    append_result(body, &frame);
    return append_byte(body, 0x0b) || append_byte(body, 0x05);
}

/* Fills a body. */
static bool fill(struct body *body) {
    struct tansyattic_verdict verdict;
    body->bytes[body->length++] = 0; /* no locals but the parameters */
    for (int count = 0, attempts = 0; count < OPERATORS; attempts++) {
        if (attempts == ATTEMPTS) return false;
        count += append_any(body);
    }
    while (tansyattic_frames(&body->function) != 0)
        if (!close_frame(body)) return false;
    return tansyattic_finish(&body->function, body->length, NULL, 0, &verdict) == TANSYATTIC_VALID;
}

/* Writes a number as LEB128 of four bytes. */
static uint8_t *put_number(uint8_t *at, size_t number) {
    for (int i = 0; i < 3; i++, number >>= 7) *at++ = (uint8_t)(number & 0x7f) | 0x80;
    *at++ = (uint8_t)number;
    return at;
}

/* Puts what is declared and the body into a module, whose length it answers. */
static size_t put_module(uint8_t *module, const struct body *body) {
    uint8_t *at = module + sizeof declared;
    memcpy(module, declared, sizeof declared);
    *at++ = 10; /* the code section: its length, one body, the length of that */
    at = put_number(at, body->length + 5);
    *at++ = 1;
    at = put_number(at, body->length);
    memcpy(at, body->bytes, body->length);
    return (size_t)(at - module) + body->length;
}

static bool write_file(const char *folder, unsigned long number, const uint8_t *bytes, size_t length) {
    char name[4096];
    if (snprintf(name, sizeof name, "%s/%lu.wasm", folder, number) >= (int)sizeof name) return false;
    FILE *file = fopen(name, "wb");
    if (file == NULL) return false;
    bool whole = fwrite(bytes, 1, length, file) == length;
    return (fclose(file) == 0) & whole;
}

/* Makes a module and writes it. Answers whether the library says of the whole what it said of each operator. */
static bool generate(struct tansyattic_module *declarations, const char *folder, unsigned long number) {
    static struct body body;
    static uint8_t module[2 * ROOM];
    struct tansyattic_verdict verdict;
    body.length = 0;
    if (tansyattic_begin(declarations, 0, &body.function, NULL, 0, &verdict) != TANSYATTIC_VALID) return false;
    bool is_filled = fill(&body);
    tansyattic_free_function(&body.function);
    if (!is_filled) return false;
    size_t length = put_module(module, &body);
    return write_file(folder, number, module, length) &&
           tansyattic_validate(module, length, PROPOSALS, NULL, 0, &verdict) == TANSYATTIC_VALID;
}

int main(int count, char **words) {
    struct tansyattic_module declarations = TANSYATTIC_NONE;
    struct tansyattic_verdict verdict;
    if (count != 4) {
        fprintf(stderr, "usage: generate SEED COUNT FOLDER\n");
        return 2;
    }
    state = strtoull(words[1], NULL, 10);
    unsigned long modules = strtoul(words[2], NULL, 10), valid = 0;
    if (tansyattic_declare(declared, sizeof declared, PROPOSALS, &declarations, NULL, 0, &verdict) != TANSYATTIC_VALID)
        return 2;
    for (unsigned long number = 0; number < modules; number++) valid += generate(&declarations, words[3], number);
    tansyattic_free(&declarations);
    printf("%lu modules of %d operators and what closes their frames, %lu valid\n", modules, OPERATORS, valid);
    return valid != modules;
}
