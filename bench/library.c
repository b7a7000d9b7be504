/* How long the library takes for a module that is in memory. By `whole FILE` it prints the seconds of a check of the
   module. By `operators FILE` it prints the operators of its accepted bodies, and nanoseconds for each: by the check of
   whole bodies, by tansyattic_op, by tansyattic_try_op, and by that with the types of its three topmost operands read
   before it. Each is the best of several rounds. */
#define _POSIX_C_SOURCE 199309L
#include "../tests/c/calls.h"

enum { ROUNDS = 15, ROUNDS_OF_WHOLE = 5 };

static struct tansyattic_module module;
static uint8_t *bytes;
static uint64_t shown;

static void read_operands(struct tansyattic_function *function) {
    struct tansyattic_type type;
    for (uint64_t depth = 0; depth < 3 && tansyattic_operand(function, depth, &type) != 0; depth++) shown += type.code;
}

/* Goes through a body, and answers how many operators are accepted. */
static uint64_t walk_quickly(uint32_t index, take_op *take, bool shows) {
    struct tansyattic_function function = TANSYATTIC_NONE;
    struct tansyattic_verdict verdict;
    uint64_t at = 0, behind = 0, operators = 0;
    uint32_t status = tansyattic_begin_body(&module, index, &function, &at, &behind, NULL, 0, &verdict);
    for (size_t taken; status == TANSYATTIC_VALID && at < behind; at += taken) {
        if (shows) read_operands(&function);
        status = take(&function, bytes + at, (size_t)(behind - at), at, &taken, NULL, 0, &verdict);
        operators += status == TANSYATTIC_VALID;
    }
    tansyattic_free_function(&function);
    return operators;
}

static uint64_t check_whole(uint32_t index) {
    struct tansyattic_verdict verdict;
    return tansyattic_validate_function(&module, index, NULL, 0, &verdict);
}

/* The seconds of the best round over all bodies, by one of the ways. */
static double best(int way, uint64_t *operators) {
    double least = 1e9;
    uint32_t first = tansyattic_imported_functions(&module), behind = tansyattic_functions(&module);
    for (int round = 0; round < ROUNDS; round++) {
        double begin = seconds();
        *operators = 0;
        for (uint32_t index = first; index < behind; index++)
            *operators += way == 0   ? check_whole(index)
                          : way == 1 ? walk_quickly(index, tansyattic_op, false)
                                     : walk_quickly(index, tansyattic_try_op, way == 3);
        double took = seconds() - begin;
        if (took < least) least = took;
    }
    return least;
}

static int time_operators(size_t length) {
    struct tansyattic_verdict verdict;
    uint64_t operators, not_valid;
    if (tansyattic_load(bytes, length, TANSYATTIC_FEATURES_ALL, &module, NULL, 0, &verdict) != TANSYATTIC_VALID) return 1;
    double whole = best(0, &not_valid), by[3];
    if (not_valid != 0) printf("bodies aren't accepted, so the times don't compare: ");
    for (int way = 1; way <= 3; way++) by[way - 1] = best(way, &operators);
    double each = 1e9 / (double)operators;
    printf("%llu operators, ns each: whole bodies %.1f, op %.1f, try_op %.1f, with operands %.1f\n",
           (unsigned long long)operators, whole * each, by[0] * each, by[1] * each, by[2] * each);
    tansyattic_free(&module);
    return shown == 0;
}

static int time_whole(size_t length) {
    double least = 1e9;
    for (int round = 0; round < ROUNDS_OF_WHOLE; round++) {
        struct tansyattic_verdict verdict;
        double begin = seconds();
        if (tansyattic_validate(bytes, length, TANSYATTIC_FEATURES_ALL, NULL, 0, &verdict) != TANSYATTIC_VALID) return 1;
        double took = seconds() - begin;
        if (took < least) least = took;
    }
    printf("%f\n", least);
    return 0;
}

int main(int count, char **words) {
    FILE *file = count == 3 ? fopen(words[2], "rb") : NULL;
    if (file == NULL || fseek(file, 0, SEEK_END) != 0) return 2;
    size_t length = (size_t)ftell(file);
    fclose(file);
    bytes = malloc(length + 1);
    if (bytes == NULL || read_file(words[2], bytes, length) != length) return 2;
    return strcmp(words[1], "whole") == 0 ? time_whole(length) : time_operators(length);
}
