/* The calls on functions, in orders that are right and that are wrong: what each answers, what it leaves, and with
   which text. The last line says how many expectations there were, and how many weren't met. */
#include "tansyattic.h"
#include <stdio.h>
#include <string.h>

static long expectations, unmet;

static void expect(bool met, int line, const char *what) {
    ++expectations;
    if (met) return;
    ++unmet;
    printf("line %d: %s\n", line, what);
}
#define EXPECT(condition) expect(condition, __LINE__, #condition)

static uint8_t text[100];
static struct tansyattic_verdict verdict;
static size_t taken;

static bool has_text(const char *wanted) {
    return verdict.text_length == strlen(wanted) && memcmp(text, wanted, verdict.text_length) == 0;
}

#define TOLD text, sizeof text, &verdict

/* Types: 0 [i32 i32] -> [i32], 1 [] -> [], 2 a struct of an i32; a function of 0, and a global. */
static const uint8_t declared[] = {0,    'a',  's',  'm',  1, 0, 0,    0, 1, 14, 3, 0x60, 2, 0x7f, 0x7f, 1,
                                   0x7f, 0x60, 0,    0,    0x5f, 1, 0x7f, 1, 3, 2,  1, 0,    6, 6,    1,    0x7f,
                                   1,    0x41, 0,    0x0b};

/* An imported function, and one whose body drops nothing, both [] -> []; the second has the name `f`. */
static const uint8_t loaded[] = {0, 'a', 's',  'm', 1,   0,   0,    0,    1,    4, 1, 0x60, 0, 0,   2,   7,  1,
                                 1, 'a', 1,    'b', 0,   0,   3,    2,    1,    0, 10, 7,   1, 5,   1,   1,  0x7e,
                                 0x1a, 0x0b, 0, 11, 4,   'n', 'a',  'm',  'e',  1, 4, 1,    1, 1,   'f'};

static struct tansyattic_module declared_module(uint32_t features) {
    struct tansyattic_module module = TANSYATTIC_NONE;
    EXPECT(tansyattic_declare(declared, sizeof declared, features, &module, TOLD) == TANSYATTIC_VALID);
    return module;
}

/* A function of type 0 over the module that is declared. */
static struct tansyattic_function begun(uint32_t features) {
    struct tansyattic_module module = declared_module(features);
    struct tansyattic_function function = TANSYATTIC_NONE;
    EXPECT(tansyattic_begin(&module, 0, &function, TOLD) == TANSYATTIC_VALID);
    tansyattic_free(&module); /* the function keeps a share of it */
    return function;
}

#define OP(function, ...)                                                                                         \
    tansyattic_op(function, (const uint8_t[]){__VA_ARGS__}, sizeof(const uint8_t[]){__VA_ARGS__}, 7, &taken, TOLD)
#define TRY_OP(function, ...)                                                                                     \
    tansyattic_try_op(function, (const uint8_t[]){__VA_ARGS__}, sizeof(const uint8_t[]){__VA_ARGS__}, 7, &taken, TOLD)

static void try_without_function(struct tansyattic_function *function) {
    struct tansyattic_type type = {.code = TANSYATTIC_TYPE_I32};
    struct tansyattic_frame frame;
    EXPECT(OP(function, 1) == TANSYATTIC_NOT_LOADED);
    EXPECT(TRY_OP(function, 1) == TANSYATTIC_NOT_LOADED);
    EXPECT(verdict.status == TANSYATTIC_NOT_LOADED && taken == 0);
    EXPECT(tansyattic_finish(function, 7, TOLD) == TANSYATTIC_NOT_LOADED);
    EXPECT(tansyattic_define_locals(function, 1, &type, 7, TOLD) == TANSYATTIC_NOT_LOADED);
    EXPECT(tansyattic_operands(function) == 0 && tansyattic_frames(function) == 0 && tansyattic_locals(function) == 0);
    EXPECT(tansyattic_operand(function, 0, &type) == 0);
    EXPECT(tansyattic_frame(function, 0, &frame) == 0);
    EXPECT(tansyattic_local(function, 0, &type) == 0);
    tansyattic_free_function(function);
    EXPECT(function->at == NULL);
}

/* No module, no function, no such type, no body. */
static void try_begins(void) {
    struct tansyattic_module none = TANSYATTIC_NONE, module = declared_module(TANSYATTIC_FEATURES_ALL);
    struct tansyattic_function function = TANSYATTIC_NONE;
    struct tansyattic_type type = {.code = TANSYATTIC_TYPE_I32}, unknown = {.code = TANSYATTIC_TYPE_UNKNOWN};
    uint64_t first = 3, behind = 5;
    try_without_function(&function);
    EXPECT(tansyattic_begin(&none, 0, &function, TOLD) == TANSYATTIC_NOT_LOADED);
    EXPECT(tansyattic_begin_expression(&none, &type, &function, TOLD) == TANSYATTIC_NOT_LOADED);
    EXPECT(tansyattic_begin_body(&none, 0, &function, &first, &behind, TOLD) == TANSYATTIC_NOT_LOADED);
    EXPECT(tansyattic_begin(&module, 2, &function, TOLD) == TANSYATTIC_INVALID);
    EXPECT(tansyattic_begin(&module, 3, &function, TOLD) == TANSYATTIC_INVALID);
    EXPECT(tansyattic_begin(&module, UINT32_MAX, &function, TOLD) == TANSYATTIC_INVALID);
    EXPECT(tansyattic_begin_expression(&module, &unknown, &function, TOLD) == TANSYATTIC_MALFORMED);
    EXPECT(tansyattic_begin_body(&module, 0, &function, &first, &behind, TOLD) == TANSYATTIC_NO_BODY);
    EXPECT(function.at == NULL && first == 3 && behind == 5);
    EXPECT(tansyattic_begin(&module, 1, &function, TOLD) == TANSYATTIC_VALID);
    EXPECT(tansyattic_locals(&function) == 0);
    EXPECT(tansyattic_begin(&module, 3, &function, TOLD) == TANSYATTIC_INVALID); /* the function stays */
    EXPECT(tansyattic_frames(&function) == 1 && tansyattic_locals(&function) == 0);
    EXPECT(tansyattic_begin(&module, 0, &function, TOLD) == TANSYATTIC_VALID); /* another in its place */
    EXPECT(tansyattic_locals(&function) == 2);
    EXPECT(tansyattic_begin_expression(&module, &type, &function, TOLD) == TANSYATTIC_VALID);
    EXPECT(OP(&function, 0x41, 0) == TANSYATTIC_VALID && OP(&function, 0x0b) == TANSYATTIC_VALID);
    EXPECT(tansyattic_finish(&function, 9, TOLD) == TANSYATTIC_VALID);
    tansyattic_free(&module);
    tansyattic_free_function(&function);
    try_without_function(&function);
}

/* A declared module has no bodies, and the loop over what isn't accepted ends, as without a module. */
static void try_without_bodies(void) {
    struct tansyattic_module none = TANSYATTIC_NONE, module = declared_module(TANSYATTIC_FEATURES_ALL);
    struct tansyattic_module *modules[] = {&none, &module};
    uint32_t answers[] = {TANSYATTIC_NOT_LOADED, TANSYATTIC_NO_BODY};
    for (size_t i = 0; i < 2; i++) {
        size_t position = 0, rounds = 0;
        uint32_t status;
        while ((status = tansyattic_validate_next(modules[i], &position, TOLD)) != TANSYATTIC_VALID &&
               status <= TANSYATTIC_NOT_COVERED)
            ++rounds;
        EXPECT(rounds == 0 && status == answers[i]);
        EXPECT(tansyattic_validate_module(modules[i], TOLD) == answers[i]);
        EXPECT(tansyattic_validate_function(modules[i], 0, TOLD) == answers[i]);
    }
    EXPECT(tansyattic_functions(&module) == 1 && tansyattic_imported_functions(&module) == 0);
    tansyattic_free(&module);
    EXPECT(tansyattic_declare(loaded, sizeof loaded, TANSYATTIC_FEATURES_ALL, &none, TOLD) == TANSYATTIC_MALFORMED);
    EXPECT(none.at == NULL);
}

/* A whole function: each of its answers, and what lies on its stacks. */
static void try_whole(void) {
    struct tansyattic_function function = begun(TANSYATTIC_FEATURES_DEFAULT);
    struct tansyattic_frame frame;
    struct tansyattic_type type;
    EXPECT(tansyattic_operands(&function) == 0 && tansyattic_frames(&function) == 1);
    EXPECT(tansyattic_frame(&function, 0, &frame) == 1 && tansyattic_frame(&function, 1, &frame) == 0);
    EXPECT(frame.kind == TANSYATTIC_FRAME_BLOCK && frame.block_kind == TANSYATTIC_BLOCK_FUNCTION);
    EXPECT(frame.block_index == 0 && frame.height == 0 && frame.unreachable == 0);
    EXPECT(OP(&function, 0x20, 0, 0x20, 1) == TANSYATTIC_VALID && taken == 2);
    EXPECT(OP(&function, 0x41, 0x80, 1, 0x6a) == TANSYATTIC_VALID && taken == 3);
    EXPECT(verdict.status == TANSYATTIC_VALID && verdict.reason == TANSYATTIC_REASON_NONE);
    EXPECT(tansyattic_operands(&function) == 2 && tansyattic_operand(&function, 1, &type) == 1);
    EXPECT(type.code == TANSYATTIC_TYPE_I32 && tansyattic_operand(&function, 2, &type) == 0);
    EXPECT(OP(&function, 0x03, 0x7e) == TANSYATTIC_VALID && tansyattic_frames(&function) == 2);
    EXPECT(tansyattic_frame(&function, 0, &frame) == 1 && frame.kind == TANSYATTIC_FRAME_LOOP);
    EXPECT(frame.block_kind == TANSYATTIC_BLOCK_VALUE && frame.block_type.code == TANSYATTIC_TYPE_I64);
    EXPECT(frame.height == 2 && frame.unreachable == 0);
    EXPECT(OP(&function, 0x00) == TANSYATTIC_VALID && OP(&function, 0x1b) == TANSYATTIC_VALID);
    EXPECT(tansyattic_operand(&function, 0, &type) == 1 && type.code == TANSYATTIC_TYPE_UNKNOWN);
    EXPECT(tansyattic_frame(&function, 0, &frame) == 1 && frame.unreachable == 1);
    EXPECT(OP(&function, 0x0b) == TANSYATTIC_VALID && tansyattic_operands(&function) == 3);
    EXPECT(tansyattic_operand(&function, 0, &type) == 1 && type.code == TANSYATTIC_TYPE_I64);
    EXPECT(OP(&function, 0x1a) == TANSYATTIC_VALID && OP(&function, 0x6a) == TANSYATTIC_VALID);
    EXPECT(tansyattic_finish(&function, 9, TOLD) == TANSYATTIC_INVALID && verdict.offset == 9);
    EXPECT(has_text("control frames remain at end of function: END opcode expected"));
    EXPECT(OP(&function, 0x0b) == TANSYATTIC_VALID && tansyattic_frames(&function) == 0);
    EXPECT(TRY_OP(&function, 0x01) == TANSYATTIC_INVALID && has_text("operators remaining after end of function"));
    EXPECT(tansyattic_finish(&function, 9, TOLD) == TANSYATTIC_VALID);
    EXPECT(tansyattic_finish(&function, 9, TOLD) == TANSYATTIC_VALID);
    tansyattic_free_function(&function);
}

/* Attempts that are refused: nothing is changed. */
static void try_attempts(void) {
    struct tansyattic_function function = begun(TANSYATTIC_FEATURES_ALL);
    EXPECT(OP(&function, 0x42, 0) == TANSYATTIC_VALID);
    taken = 5;
    EXPECT(TRY_OP(&function, 0x6a) == TANSYATTIC_INVALID && taken == 0 && verdict.offset == 7);
    EXPECT(has_text("type mismatch: expected i32, found i64") && verdict.reason == TANSYATTIC_REASON_MISMATCH);
    EXPECT(verdict.text_needed == verdict.text_length && verdict.kind == TANSYATTIC_MODULE);
    EXPECT(TRY_OP(&function, 0x41, 0x80) == TANSYATTIC_MALFORMED && has_text("unexpected end") && taken == 0);
    EXPECT(verdict.offset == 9); /* behind the last byte */
    EXPECT(tansyattic_try_op(&function, NULL, 0, 7, &taken, TOLD) == TANSYATTIC_MALFORMED);
    EXPECT(has_text("unexpected end") && taken == 0);
    EXPECT(TRY_OP(&function, 0xff) == TANSYATTIC_MALFORMED && verdict.reason == TANSYATTIC_REASON_NONE);
    EXPECT(TRY_OP(&function, 0x20, 9) == TANSYATTIC_INVALID && verdict.reason == TANSYATTIC_REASON_UNKNOWN_LOCAL);
    EXPECT(TRY_OP(&function, 0xfd, 0x4d) == TANSYATTIC_NOT_COVERED && taken == 0);
    EXPECT(OP(&function, 0xfd, 0x4d) == TANSYATTIC_NOT_COVERED); /* it hasn't failed for it */
    EXPECT(TRY_OP(&function, 0x0b) == TANSYATTIC_INVALID);
    EXPECT(tansyattic_operands(&function) == 1 && tansyattic_frames(&function) == 1);
    EXPECT(OP(&function, 0x50) == TANSYATTIC_VALID && OP(&function, 0x0b) == TANSYATTIC_VALID);
    EXPECT(tansyattic_finish(&function, 9, TOLD) == TANSYATTIC_VALID);
    tansyattic_free_function(&function);
}

static void try_texts(void) {
    struct tansyattic_function function = begun(TANSYATTIC_FEATURES_DEFAULT);
    uint8_t add = 0x6a;
    memset(text, 'x', sizeof text);
    EXPECT(tansyattic_try_op(&function, &add, 1, 7, &taken, text, 4, &verdict) == TANSYATTIC_INVALID);
    EXPECT(verdict.text_length == 4 && memcmp(text, "typex", 5) == 0);
    EXPECT(verdict.text_needed == strlen("type mismatch: expected i32 but nothing on stack"));
    EXPECT(tansyattic_try_op(&function, &add, 1, 7, &taken, NULL, 0, &verdict) == TANSYATTIC_INVALID);
    EXPECT(verdict.text_length == 0 && verdict.text_needed != 0);
    EXPECT(verdict.reason == TANSYATTIC_REASON_NOTHING_FOUND);
    EXPECT(OP(&function, 0x02, 0x40) == TANSYATTIC_VALID && TRY_OP(&function, 0x05) == TANSYATTIC_INVALID);
    EXPECT(verdict.reason == TANSYATTIC_REASON_ELSE_OUTSIDE_IF && has_text("else found outside of an `if` block"));
    tansyattic_free_function(&function);
}

/* A function that has failed refuses, and tells what it is told. */
static void try_failed(void) {
    static const uint8_t refused[][2] = {{0x6a, 1}, {0xff, 1}, {0x41, 0x80}};
    for (size_t i = 0; i < 3; i++) {
        struct tansyattic_function function = begun(TANSYATTIC_FEATURES_DEFAULT);
        struct tansyattic_type type;
        uint32_t wanted = i == 0 ? TANSYATTIC_INVALID : TANSYATTIC_MALFORMED;
        EXPECT(tansyattic_op(&function, refused[i], 2, 7, &taken, TOLD) == wanted);
        EXPECT(OP(&function, 0x01) == TANSYATTIC_INVALID && has_text("function validator has failed") && taken == 0);
        EXPECT(TRY_OP(&function, 0x01) == TANSYATTIC_INVALID && has_text("function validator has failed"));
        EXPECT(tansyattic_finish(&function, 8, TOLD) == TANSYATTIC_INVALID);
        EXPECT(has_text("function validator has failed") && verdict.offset == 8);
        EXPECT(tansyattic_locals(&function) == 2 && tansyattic_local(&function, 1, &type) == 1);
        tansyattic_free_function(&function);
    }
    struct tansyattic_function function = begun(TANSYATTIC_FEATURES_ALL & ~TANSYATTIC_FEATURE_SIMD);
    EXPECT(TRY_OP(&function, 0xfd, 0x4d) == TANSYATTIC_INVALID && has_text("SIMD support is not enabled"));
    tansyattic_free_function(&function);
}

static bool is_same_type(const struct tansyattic_type *a, const struct tansyattic_type *b) {
    return a->code == b->code && a->index == b->index && a->nullable == b->nullable && a->shared == b->shared &&
           a->exact == b->exact && b->reserved == 0;
}

/* Locals of each type are shown as they were declared. */
static void try_locals(void) {
    struct tansyattic_function function = begun(TANSYATTIC_FEATURES_ALL);
    struct tansyattic_type shown, index = {.code = TANSYATTIC_TYPE_INDEX, .index = 2, .nullable = 1, .exact = 1};
    uint32_t count = 2;
    for (uint32_t code = 0; code <= 0x100; code++) {
        bool is_number = code >= 0x7b && code <= 0x7f, is_heap = code >= 0x68 && code <= 0x75;
        for (uint8_t flags = 0; flags < 4; flags++) {
            struct tansyattic_type type = {.code = code, .nullable = flags & 1, .shared = flags >> 1};
            if (code == TANSYATTIC_TYPE_INDEX) continue;
            bool is_valid = tansyattic_define_locals(&function, 2, &type, 7, TOLD) == TANSYATTIC_VALID;
            EXPECT(is_valid == (is_number || is_heap));
            if (!is_valid) continue;
            count += 2;
            if (is_number) type.nullable = type.shared = 0;
            EXPECT(tansyattic_local(&function, count - 1, &shown) == 1 && is_same_type(&type, &shown));
        }
    }
    EXPECT(tansyattic_define_locals(&function, 1, &index, 7, TOLD) == TANSYATTIC_VALID);
    EXPECT(tansyattic_local(&function, count++, &shown) == 1 && is_same_type(&index, &shown));
    index.index = 3;
    EXPECT(tansyattic_define_locals(&function, 1, &index, 7, TOLD) == TANSYATTIC_INVALID);
    index.index = 2;
    EXPECT(tansyattic_define_locals(&function, UINT32_MAX, &index, 7, TOLD) == TANSYATTIC_INVALID);
    EXPECT(has_text("too many locals: locals exceed maximum") && verdict.offset == 7);
    EXPECT(tansyattic_locals(&function) == count && tansyattic_local(&function, count, &shown) == 0);
    EXPECT(OP(&function, 0x01) == TANSYATTIC_VALID);
    EXPECT(tansyattic_define_locals(&function, 1, &index, 7, TOLD) == TANSYATTIC_INVALID);
    EXPECT(tansyattic_locals(&function) == count && OP(&function, 0x01) == TANSYATTIC_VALID);
    tansyattic_free_function(&function);
}

/* Bytes that end in a section: what is put behind them to read what they declare isn't told of. Here the section would end
   with what is put behind them, the code section of 121 bodies, whose second byte is the prefix of vector operators. */
static void try_cut(void) {
    static const uint8_t head[] = {0, 'a', 's', 'm', 1, 0, 0, 0, 1, 4, 1, 0x60, 0, 0, 3, 122, 121};
    static const uint8_t tail[] = {6, 0x85, 1, 1, 0x7f, 0};
    uint8_t bytes[sizeof head + 121 + sizeof tail] = {0};
    struct tansyattic_module module = TANSYATTIC_NONE;
    memcpy(bytes, head, sizeof head);
    memcpy(bytes + sizeof head + 121, tail, sizeof tail);
    EXPECT(tansyattic_declare(bytes, sizeof bytes, TANSYATTIC_FEATURES_ALL, &module, TOLD) == TANSYATTIC_MALFORMED);
    EXPECT(has_text("unexpected end") && verdict.offset == sizeof bytes && module.at == NULL);
}

/* More functions than a module may have, without bodies: they are past a limit, and not malformed. */
static void try_many(void) {
    static const uint8_t head[] = {0, 'a',  's', 'm', 1,    0,    0,    0,    1,    4,   1,
                                   0x60, 0, 0,   3,   0xc5, 0x84, 0x3d, 0xc2, 0x84, 0x3d};
    static uint8_t bytes[sizeof head + 1000002];
    struct tansyattic_module module = TANSYATTIC_NONE;
    memcpy(bytes, head, sizeof head);
    EXPECT(tansyattic_declare(bytes, sizeof bytes, TANSYATTIC_FEATURES_ALL, &module, TOLD) == TANSYATTIC_TOO_LARGE);
    EXPECT(has_text("functions count exceeds limit of 1000000") && module.at == NULL);
}

/* A body of a module, with its locals; and names. */
static void try_bodies(void) {
    struct tansyattic_module module = TANSYATTIC_NONE;
    struct tansyattic_function function = TANSYATTIC_NONE;
    uint64_t first = 3, behind = 5;
    EXPECT(tansyattic_load(loaded, sizeof loaded, TANSYATTIC_FEATURES_DEFAULT, &module, TOLD) == TANSYATTIC_VALID);
    EXPECT(tansyattic_begin_body(&module, 0, &function, &first, &behind, TOLD) == TANSYATTIC_NO_BODY);
    EXPECT(tansyattic_begin_body(&module, 2, &function, &first, &behind, TOLD) == TANSYATTIC_NO_BODY);
    EXPECT(function.at == NULL && first == 3 && behind == 5);
    EXPECT(tansyattic_begin_body(&module, 1, &function, &first, &behind, TOLD) == TANSYATTIC_VALID);
    EXPECT(behind - first == 2 && loaded[first] == 0x1a && tansyattic_locals(&function) == 1);
    EXPECT(tansyattic_function_name(&module, 1, text, sizeof text) == 1 && text[0] == 'f');
    EXPECT(tansyattic_function_name(&module, 1, NULL, 0) == 1);
    EXPECT(tansyattic_function_name(&module, 0, text, sizeof text) == 0);
    EXPECT(tansyattic_function_name(&module, 2, text, sizeof text) == 0);
    tansyattic_free(&module);
    EXPECT(tansyattic_function_name(&module, 1, text, sizeof text) == 0);
    EXPECT(tansyattic_op(&function, loaded + first, 2, first, &taken, TOLD) == TANSYATTIC_INVALID);
    EXPECT(verdict.offset == first && has_text("type mismatch: expected a type but nothing on stack"));
    tansyattic_free_function(&function);
    uint8_t fill[] = {0xfc, 11, 0}, vector[] = {0xfd, 0x4d};
    EXPECT(tansyattic_operator_name(fill, sizeof fill, text, 6) == 11 && memcmp(text, "memory", 6) == 0);
    EXPECT(tansyattic_operator_name(fill, 1, text, sizeof text) == 0);
    EXPECT(tansyattic_operator_name(vector, sizeof vector, text, sizeof text) == 0);
    EXPECT(tansyattic_operator_name(NULL, 0, NULL, 0) == 0);
}

int main(void) {
    EXPECT(tansyattic_version() == TANSYATTIC_VERSION);
    try_begins();
    try_without_bodies();
    try_whole();
    try_attempts();
    try_texts();
    try_failed();
    try_locals();
    try_bodies();
    try_cut();
    try_many();
    printf("%ld expectations of functions, %ld unmet\n", expectations, unmet);
    return unmet != 0 || expectations == 0;
}
