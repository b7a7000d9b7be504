/* Changes modules at random, in one process, and calls the library over what comes of it:

       random SEED SECONDS FILE..
       random -n NUMBER SEED FILE.. > MODULE

   The second writes the module of that number, and checks it alone. Half of them are changed in the operators of a body
   alone. What has to hold: the calls say the same of a module, at once, from a handle, one after another, function by
   function, and operator by operator, by op and by try_op; a module that isn't read leaves no handle; all memory is
   given back. Each module ends where a page ends that can't be read behind it. In one of eight, requests for memory are
   refused, and functions are called in any order. The last line says how many modules there were, how many of them were
   read, how many operators of these were accepted one by one, and how many modules were wrong; a module that ends the
   process is told by its number. */
#define _GNU_SOURCE
#include "calls.h"
#include "counted.h"
#include <inttypes.h>
#include <signal.h>
#include <sys/mman.h>
#include <unistd.h>

enum { FUNCTIONS = 4096 };

/* Numbers at random, each module's from its own number on. */
static uint64_t state;

static uint64_t next_number(void) {
    uint64_t z = state += 0x9e3779b97f4a7c15u;
    z = (z ^ z >> 30) * 0xbf58476d1ce4e5b9u;
    z = (z ^ z >> 27) * 0x94d049bb133111ebu;
    return z ^ z >> 31;
}

static size_t below(size_t bound) { return bound != 0 ? (size_t)(next_number() % bound) : 0; }

struct bytes {
    uint8_t *at;
    size_t length;
    /* Where the operators of a body stand, if there is one. */
    uint64_t first, behind;
};

/* The modules that are changed: those that are read stand first. */
static struct bytes *bases;
static size_t base_count, readable_count;

/* The module that is made, and the room that it lies in, at its end. */
static uint8_t made[ROOM], *room;
static size_t length;

/* Changes a byte: by a bit, to any other, to one at which something begins or ends, or by one. */
static void change_byte(uint8_t *byte) {
    static const uint8_t edges[] = {0,    1,    0x0b, 0x3f, 0x40, 0x5f, 0x60, 0x64,
                                    0x70, 0x7f, 0x80, 0xfb, 0xfc, 0xfd, 0xfe, 0xff};
    switch (below(4)) {
    case 0: *byte ^= (uint8_t)(1 << below(8)); break;
    case 1: *byte = (uint8_t)next_number(); break;
    case 2: *byte = edges[below(sizeof edges)]; break;
    default: *byte += (uint8_t)(below(2) * 2 - 1);
    }
}

/* Puts so many bytes of a part in the place of others of it. */
static void copy_within(uint8_t *part, size_t size, size_t at, size_t count) {
    if (count > size - at) count = size - at;
    memmove(part + at, part + below(size - count + 1), count);
}

/* Puts so many bytes of another place in the place of so many. */
static void splice(size_t at, size_t out, const uint8_t *from, size_t count) {
    if (out > length - at) out = length - at;
    if (length - out + count > ROOM) return;
    memmove(made + at + count, made + at + out, length - at - out);
    memcpy(made + at, from, count);
    length += count - out;
}

/* One change. Five of eight keep the length, and so what the sections say of theirs; half of them stand in the last
   third, where the bodies are. */
static void change(void) {
    size_t at = below(2) != 0 ? below(length) : length - 1 - below((length + 2) / 3), count = 1 + below(8);
    const struct bytes *other = &bases[below(base_count)];
    size_t kind = below(8), start = below(other->length);
    uint8_t byte = (uint8_t)next_number();
    if (kind < 4) change_byte(made + at);
    else if (kind == 4) copy_within(made, length, at, count);
    else if (kind == 5) splice(at, count, &byte, 0);
    else if (kind == 6) splice(at, 0, &byte, 1);
    else {
        if (count > other->length - start) count = other->length - start;
        splice(at, below(2) * count, other->at + start, count);
    }
}

/* A change of a byte of a body's operators, or of some of them by others of theirs. */
static void change_operators(const struct bytes *base) {
    uint8_t *operators = made + base->first;
    size_t size = (size_t)(base->behind - base->first), at = below(size);
    if (below(4) != 0) change_byte(operators + at);
    else copy_within(operators, size, at, 1 + below(4));
}

static void make_module(uint64_t seed, uint64_t number) {
    state = seed * 0x2545f4914f6cdd1du + number;
    const struct bytes *base = &bases[below(below(8) != 0 ? readable_count : base_count)];
    memcpy(made, base->at, length = base->length);
    if (number % 2 == 0 && base->first < base->behind) {
        for (size_t changes = 1 + below(3); changes != 0; --changes) change_operators(base);
        return;
    }
    for (size_t changes = 1 + below(1 + below(6)); changes != 0 && length != 0; --changes) change();
}

/* Whether both tell the same in their texts; what stands behind these says nothing. */
static bool has_text_of(const struct answer *a, const struct answer *b) {
    size_t size = a->verdict.text_length;
    return size == b->verdict.text_length && memcmp(a->text, b->text, size) == 0;
}

static uint64_t operators;

/* Whether a body comes to the same operator by operator, by either call, with the same on the stacks. Upstream has a
   text of its own where a whole body ends too early. */
static bool is_same_by_operators(struct tansyattic_module *module, uint32_t index, const uint8_t *bytes,
                                 const struct answer *whole) {
    static struct walk by_op, by_try_op;
    const struct tansyattic_verdict *v = &by_op.answer.verdict, *w = &whole->verdict;
    walk_body(module, index, bytes, tansyattic_op, &by_op);
    walk_body(module, index, bytes, tansyattic_try_op, &by_try_op);
    operators += by_op.operators;
    if (!is_same_walk(&by_op, &by_try_op) || v->status != w->status) return false;
    if (v->status == TANSYATTIC_VALID || v->status == TANSYATTIC_NO_BODY) return true;
    return v->reason == w->reason && v->offset == w->offset && (has_text_of(&by_op.answer, whole) || by_op.is_at_end);
}

/* Whether the functions come to what is told of them: those that aren't told are accepted. */
static bool are_functions_so(struct tansyattic_module *module, const uint8_t *bytes, const uint8_t *told) {
    uint32_t count = tansyattic_functions(module), imported = tansyattic_imported_functions(module);
    for (uint32_t index = 0; index <= count && index < FUNCTIONS; index++) {
        struct answer answer = {0};
        uint32_t wanted = index < imported || index == count ? TANSYATTIC_NO_BODY : told[index];
        if (tansyattic_validate_function(module, index, TOLD(&answer)) != wanted ||
            !is_same_by_operators(module, index, bytes, &answer))
            return false;
    }
    return imported <= count;
}

/* Whether what is told one after another is as many as the whole says, with its first among them. */
static bool are_all_told(struct tansyattic_module *module, const uint8_t *bytes, const struct answer *whole) {
    static uint8_t told[FUNCTIONS];
    memset(told, 0, sizeof told);
    const struct tansyattic_verdict *w = &whole->verdict;
    uint64_t refusals = 0, not_covered = 0;
    bool is_first_told = w->status == TANSYATTIC_VALID;
    for (size_t position = 0, before;;) {
        struct answer answer = {0};
        const struct tansyattic_verdict *v = &answer.verdict;
        before = position;
        uint32_t status = tansyattic_validate_next(module, &position, TOLD(&answer));
        if (status == TANSYATTIC_VALID) break;
        if (status > TANSYATTIC_NOT_COVERED || position <= before) return false;
        refusals += status == TANSYATTIC_INVALID || status == TANSYATTIC_MALFORMED;
        not_covered += status == TANSYATTIC_NOT_COVERED;
        if (v->kind == TANSYATTIC_FUNCTION && v->index < FUNCTIONS) told[v->index] = (uint8_t)status;
        is_first_told |= v->kind == w->kind && v->index == w->index && v->offset == w->offset && has_text_of(&answer, whole);
    }
    return is_first_told && refusals == w->refused && not_covered == w->not_covered &&
           are_functions_so(module, bytes, told);
}

static uint64_t read_modules;

/* Whether the calls say the same of the module that was made. */
static bool is_right(const uint8_t *bytes) {
    struct answer at_once = {0}, loaded = {0}, whole = {0};
    struct tansyattic_module module = TANSYATTIC_NONE;
    tansyattic_validate(bytes, length, TANSYATTIC_FEATURES_ALL, TOLD(&at_once));
    if (tansyattic_load(bytes, length, TANSYATTIC_FEATURES_ALL, &module, TOLD(&loaded)) != TANSYATTIC_VALID)
        return module.at == NULL && is_same(&loaded, &at_once);
    ++read_modules;
    tansyattic_validate_module(&module, TOLD(&whole));
    bool right = is_same(&whole, &at_once) && are_all_told(&module, bytes, &whole);
    tansyattic_free(&module);
    return right && module.at == NULL;
}

/* Calls on a function in any order, over bytes of the module. */
static void call_in_any_order(struct tansyattic_module *module, const uint8_t *bytes) {
    struct tansyattic_function function = TANSYATTIC_NONE;
    struct tansyattic_verdict v;
    uint64_t first, behind;
    for (int calls = 0; calls < 12; calls++) {
        size_t at = below(length + 1), taken;
        uint32_t small = (uint32_t)below(4);
        struct tansyattic_type type = {.code = (uint32_t)(0x68 + below(0x18)), .nullable = small & 1};
        switch (below(8)) {
        case 0: tansyattic_begin(module, small, &function, NULL, 0, &v); break;
        case 1: tansyattic_begin_body(module, small, &function, &first, &behind, NULL, 0, &v); break;
        case 2: tansyattic_define_locals(&function, small, &type, at, NULL, 0, &v); break;
        case 3: tansyattic_finish(&function, at, NULL, 0, &v); break;
        case 4: tansyattic_op(&function, bytes + at, length - at, at, &taken, NULL, 0, &v); break;
        default: tansyattic_try_op(&function, bytes + at, length - at, at, &taken, NULL, 0, &v);
        }
        picture_of(&function);
    }
    tansyattic_free_function(&function);
}

/* Whether the calls come back, with all memory, where a request is refused, and say no less than with ample memory. */
static bool is_right_without_memory(const uint8_t *bytes) {
    struct answer answer = {0};
    struct tansyattic_module module = TANSYATTIC_NONE;
    refused = requests + 1 + (long)below(40);
    if (tansyattic_load(bytes, length, (uint32_t)next_number(), &module, TOLD(&answer)) != TANSYATTIC_VALID)
        tansyattic_validate(bytes, length, (uint32_t)next_number(), TOLD(&answer));
    size_t position = below(4);
    tansyattic_validate_next(&module, &position, TOLD(&answer));
    tansyattic_validate_module(&module, answer.text, below(TEXT), &answer.verdict);
    call_in_any_order(&module, bytes);
    refused = 0;
    tansyattic_free(&module);
    return answer.verdict.status <= TANSYATTIC_TOO_LARGE;
}

static volatile uint64_t current;

static void check_module(uint64_t seed, uint64_t number, uint64_t *wrong) {
    current = number;
    make_module(seed, number);
    uint8_t *bytes = room + ROOM - length;
    memcpy(bytes, made, length);
    bool right = is_right(bytes);
    if (number % 8 == 0) right &= is_right_without_memory(bytes);
    if (right && blocks == 0) return;
    ++*wrong;
    blocks = 0;
    fprintf(stderr, "module %" PRIu64 " of the seed %" PRIu64 " is wrong\n", number, seed);
}

static void tell_number(int signal) {
    char line[80];
    int count = snprintf(line, sizeof line, "module %" PRIu64 " ended the process by the signal %d\n", current, signal);
    _exit(write(2, line, (size_t)count) == count ? 3 : 4);
}

/* Reads a module that is to be changed, and finds where the operators of its last body stand. */
static void read_base(const char *name) {
    struct bytes *base = &bases[base_count++];
    struct tansyattic_module module = TANSYATTIC_NONE;
    struct tansyattic_function function = TANSYATTIC_NONE;
    struct answer a;
    if ((base->at = malloc(ROOM)) == NULL) exit(2);
    base->length = read_file(name, base->at, ROOM);
    if (tansyattic_load(base->at, base->length, TANSYATTIC_FEATURES_ALL, &module, TOLD(&a)) != TANSYATTIC_VALID) return;
    uint32_t count = tansyattic_functions(&module);
    if (count != 0) tansyattic_begin_body(&module, count - 1, &function, &base->first, &base->behind, TOLD(&a));
    tansyattic_free_function(&function);
    tansyattic_free(&module);
    struct bytes first = bases[readable_count];
    bases[readable_count++] = *base;
    *base = first;
}

int main(int count, char **words) {
    bool is_one = count > 1 && strcmp(words[1], "-n") == 0;
    int first = is_one ? 4 : 3;
    if (count <= first) return 2;
    uint64_t only = strtoull(words[2], NULL, 10), seed = strtoull(words[is_one ? 3 : 1], NULL, 10), wrong = 0;
    bases = calloc((size_t)(count - first), sizeof *bases);
    for (int i = first; i < count; i++) read_base(words[i]);
    if (readable_count == 0) return 2;
    room = mmap(NULL, ROOM + 4096, PROT_READ | PROT_WRITE, MAP_PRIVATE | MAP_ANONYMOUS, -1, 0);
    if (room == MAP_FAILED || mprotect(room + ROOM, 4096, PROT_NONE) != 0) return 2;
    for (int i = 0; i < 4; i++) signal((int[]){SIGSEGV, SIGBUS, SIGILL, SIGFPE}[i], tell_number);
    if (is_one) {
        check_module(seed, only, &wrong);
        return fwrite(made, 1, length, stdout) != length || wrong != 0;
    }
    uint64_t number = 0;
    for (double end = seconds() + (double)only; number % 1024 != 0 || seconds() < end; number++)
        check_module(seed, number, &wrong);
    printf("seed %" PRIu64 ": %" PRIu64 " modules, %" PRIu64 " read, %" PRIu64 " operators one by one, %" PRIu64
           " wrong\n",
           seed, number, read_modules, operators, wrong);
    return wrong != 0 || read_modules == 0 || operators == 0;
}
