/* The library under want of memory: for each module that an argument names, calls with ample memory, and then with each
   request refused, alone and with all behind it. A call is out of memory exactly if a request of its own was refused, and
   otherwise answers as with ample memory; all blocks are given back. Each operator of the last function is attempted: out
   of memory, it leaves what lies on the stacks, and is attempted once more, which comes to what it comes to with ample
   memory. The last line says how many calls there were, and how many were wrong. */
#define _POSIX_C_SOURCE 199309L
#include "calls.h"
#include "counted.h"

/* What the calls of a module tell: those at once, those on a handle, and those on functions; whether a body was begun,
   and a number that stands for what lay on its stacks behind each operator. */
enum { AT_ONCE, LOADED, WHOLE, NEXT, FUNCTION, DECLARED, BEGUN, LOCALS, EXPRESSION, BODY, OPERATOR, FINISHED, CALLS };
struct answers {
    struct answer of[CALLS];
    bool is_body_begun;
    uint64_t picture;
};

static uint8_t bytes[ROOM];
static size_t length;
static long calls, wrong, noted;

/* Notes what a call answered, and answers whether it accepts. */
static bool note(const struct answer *answer, uint32_t status) {
    bool was_refused = refusals != noted;
    ++calls;
    noted = refusals;
    if (status != answer->verdict.status || misaligned != 0 || was_refused != (status == TANSYATTIC_OUT_OF_MEMORY)) {
        ++wrong;
        printf("a call answers %u and tells %u, %s\n", status, answer->verdict.status,
               was_refused ? "refused" : "not refused");
    }
    return status == TANSYATTIC_VALID;
}

/* Attempts an operator, and once more where memory was refused. */
static bool attempt(struct tansyattic_function *function, uint64_t at, uint64_t behind, size_t *taken, struct answer *a) {
    uint64_t before = picture_of(function);
    for (int i = 0; i < 2; i++) {
        memset(a, 0, sizeof *a);
        if (note(a, tansyattic_try_op(function, bytes + at, (size_t)(behind - at), at, taken, TOLD(a)))) return true;
        if (picture_of(function) != before) {
            ++wrong;
            printf("an attempt at %llu that isn't accepted leaves something\n", (unsigned long long)at);
        }
        if (a->verdict.status != TANSYATTIC_OUT_OF_MEMORY) break;
    }
    return false;
}

/* Goes through the body of a function. */
static void ask_body(struct tansyattic_module *module, uint32_t index, struct answers *answers) {
    struct tansyattic_function function = TANSYATTIC_NONE;
    struct answer *a = answers->of;
    uint64_t at = 0, behind = 0;
    bool goes_on = note(&a[BODY], tansyattic_begin_body(module, index, &function, &at, &behind, TOLD(&a[BODY])));
    answers->is_body_begun = goes_on;
    while (goes_on && at < behind) {
        size_t taken = 0;
        goes_on = attempt(&function, at, behind, &taken, &a[OPERATOR]);
        at += taken;
        answers->picture = mixed(answers->picture, picture_of(&function));
    }
    if (goes_on) note(&a[FINISHED], tansyattic_finish(&function, at, TOLD(&a[FINISHED])));
    tansyattic_free_function(&function);
}

/* Begins a function of the first type, and a constant expression. */
static void ask_begun(struct tansyattic_module *module, struct answers *answers) {
    struct tansyattic_function function = TANSYATTIC_NONE;
    struct tansyattic_type type = {.code = TANSYATTIC_TYPE_I64};
    struct answer *a = answers->of;
    if (note(&a[BEGUN], tansyattic_begin(module, 0, &function, TOLD(&a[BEGUN]))))
        note(&a[LOCALS], tansyattic_define_locals(&function, 1000, &type, 0, TOLD(&a[LOCALS])));
    note(&a[EXPRESSION], tansyattic_begin_expression(module, &type, &function, TOLD(&a[EXPRESSION])));
    tansyattic_free_function(&function);
}

static void ask(struct answers *answers) {
    struct answer *a = answers->of;
    struct tansyattic_module module = TANSYATTIC_NONE;
    const uint32_t all = TANSYATTIC_FEATURES_ALL;
    size_t position = 0;
    note(&a[AT_ONCE], tansyattic_validate(bytes, length, all, TOLD(&a[AT_ONCE])));
    note(&a[DECLARED], tansyattic_declare(bytes, length, all, &module, TOLD(&a[DECLARED])));
    tansyattic_free(&module);
    if (!note(&a[LOADED], tansyattic_load(bytes, length, all, &module, TOLD(&a[LOADED])))) return;
    note(&a[WHOLE], tansyattic_validate_module(&module, TOLD(&a[WHOLE])));
    note(&a[NEXT], tansyattic_validate_next(&module, &position, TOLD(&a[NEXT])));
    uint32_t last = tansyattic_functions(&module) - 1;
    note(&a[FUNCTION], tansyattic_validate_function(&module, last, TOLD(&a[FUNCTION])));
    ask_begun(&module, answers);
    ask_body(&module, last, answers);
    tansyattic_free(&module);
}

/* Asks with one request refused, and with all from one on. */
static void ask_without(struct answers *answers, long one, long from) {
    memset(answers, 0, sizeof *answers);
    requests = blocks = misaligned = refusals = noted = 0;
    refused = one;
    refused_from = from;
    ask(answers);
    if (blocks == 0) return;
    ++wrong;
    printf("request %ld, from %ld: %ld blocks are left\n", one, from, blocks);
}

/* Whether a call is out of memory, or tells what it tells with ample memory, or wasn't made. (`note` sees which of the
   first two it has to be.) */
static bool may_tell(const struct answer *found, const struct answer *ample) {
    static const struct answer none;
    return found->verdict.status == TANSYATTIC_OUT_OF_MEMORY || is_same(found, ample) || is_same(found, &none);
}

static void try_module(const char *name) {
    struct answers ample, found;
    length = read_file(name, bytes, ROOM);
    ask_without(&ample, 0, 0);
    long last = requests;
    for (long k = 1; k <= 2 * last; k++) {
        ask_without(&found, k <= last ? k : 0, k > last ? k - last : 0);
        if (k <= last && found.is_body_begun && found.picture != ample.picture) {
            ++wrong;
            printf("%s: request %ld of %ld: the stacks differ\n", name, k, last);
        }
        for (int call = 0; call < CALLS; call++) {
            if (may_tell(&found.of[call], &ample.of[call])) continue;
            ++wrong;
            printf("%s: request %ld of %ld: status %u\n", name, k, last, found.of[call].verdict.status);
        }
    }
}

/* Operators of a function that don't let its stacks grow beyond what they were ask for no memory, and neither does what
   shows the stacks. */
static void try_steady(void) {
    static const uint8_t declared[] = {0, 'a', 's', 'm', 1, 0, 0, 0, 1, 4, 1, 0x60, 0, 0};
    static const uint8_t operators[] = {0x02, 0x40, 0x41, 0, 0x0e, 1, 0, 0, 0x0b}; /* block, i32.const, br_table, end */
    struct tansyattic_module module = TANSYATTIC_NONE;
    struct tansyattic_function function = TANSYATTIC_NONE;
    struct answer a;
    size_t taken;
    tansyattic_declare(declared, sizeof declared, TANSYATTIC_FEATURES_ALL, &module, TOLD(&a));
    tansyattic_begin(&module, 0, &function, TOLD(&a));
    for (int round = 0; round < 1000; round++) {
        if (round == 1) requests = 0;
        for (size_t at = 0; at < sizeof operators; at += taken)
            if (tansyattic_try_op(&function, operators + at, sizeof operators - at, at, &taken, TOLD(&a)) != 0) exit(2);
        picture_of(&function);
        calls += 4;
    }
    if (requests != 0) ++wrong;
    tansyattic_free_function(&function);
    tansyattic_free(&module);
}

int main(int count, char **names) {
    try_steady();
    for (int i = 1; i < count; i++) try_module(names[i]);
    printf("%d modules, %ld calls, %ld wrong\n", count - 1, calls, wrong);
    return wrong != 0 || calls <= (long)CALLS * (count - 1) + 4000;
}
