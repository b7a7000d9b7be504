/* Checks each module that is named, with upstream's default proposals on, and prints what isn't accepted, and counts.
 * After `-f INDEX` it checks only the body of the function at that index. It ends with the greatest status, or with 8
 * if a file can't be read or a word isn't known.
 *
 *     gcc -O2 -o validate ffi/validate.c ffi/memory.c crates/tansyattic/out/libtansyattic.a
 */
#include "tansyattic.h"
#include <errno.h>
#include <inttypes.h>
#include <stdio.h>
#include <stdlib.h>
#include <string.h>

enum { FAILED = 8 };

static const char *const kinds[] = {
    "func", "table init", "global init", "elem offset", "elem item", "data offset", "module",
};

/* Reads the bytes of a file, which may be none. Answers whether it could. */
static bool read_file(const char *name, uint8_t **bytes, size_t *length) {
    FILE *file = fopen(name, "rb");
    if (file == NULL) return false;
    size_t room = 0;
    *bytes = NULL;
    *length = 0;
    do {
        uint8_t *larger = realloc(*bytes, room += room / 2 + 65536);
        if (larger == NULL) break;
        *bytes = larger;
        *length += fread(*bytes + *length, 1, room - *length, file);
    } while (*length == room);
    bool whole = feof(file) != 0;
    fclose(file);
    return whole;
}

static void print_told(const char *name, const struct tansyattic_verdict *v, const uint8_t *text) {
    printf("%s: %s", name, kinds[v->kind <= TANSYATTIC_MODULE ? v->kind : TANSYATTIC_MODULE]);
    if (v->kind < TANSYATTIC_MODULE) printf(" %" PRIu64, v->index);
    printf(": %.*s (at offset 0x%" PRIx64 ")\n", (int)v->text_length, (const char *)text, v->offset);
}

/* Prints what a module comes to, and what isn't accepted. */
static uint32_t check_module(const char *name, struct tansyattic_module *module) {
    uint8_t text[200];
    struct tansyattic_verdict v;
    uint32_t status = tansyattic_validate_module(module, NULL, 0, &v);
    uint64_t accepted = v.accepted, refused = v.refused, not_covered = v.not_covered;
    size_t position = 0;
    uint32_t next;
    while ((next = tansyattic_validate_next(module, &position, text, sizeof text, &v)) != TANSYATTIC_VALID &&
           next <= TANSYATTIC_NOT_COVERED)
        print_told(name, &v, text);
    printf("%s: %" PRIu64 " accepted, %" PRIu64 " refused, %" PRIu64 " not covered\n", name, accepted, refused,
           not_covered);
    return status;
}

/* Prints what the body of one of its functions comes to. */
static uint32_t check_function(const char *name, struct tansyattic_module *module, uint32_t function) {
    uint8_t text[200];
    struct tansyattic_verdict v;
    uint32_t status = tansyattic_validate_function(module, function, text, sizeof text, &v);
    if (status == TANSYATTIC_VALID)
        printf("%s: func %" PRIu32 ": accepted\n", name, function);
    else
        print_told(name, &v, text);
    return status;
}

/* Checks the module of a file, or the function of it that is named. */
static uint32_t check(const char *name, const uint32_t *function) {
    uint8_t *bytes, text[200];
    size_t length;
    if (!read_file(name, &bytes, &length)) {
        printf("%s: can't be read\n", name);
        return FAILED;
    }
    struct tansyattic_module module = TANSYATTIC_NONE;
    struct tansyattic_verdict v;
    uint32_t status = tansyattic_load(bytes, length, TANSYATTIC_FEATURES_DEFAULT, &module, text, sizeof text, &v);
    if (status != TANSYATTIC_VALID)
        print_told(name, &v, text);
    else if (function == NULL)
        status = check_module(name, &module);
    else
        status = check_function(name, &module, *function);
    tansyattic_free(&module);
    free(bytes);
    return status;
}

/* The index that a word is. Answers whether it is one. */
static bool read_index(const char *word, uint32_t *index) {
    char *end;
    if (word == NULL || *word < '0' || *word > '9') return false;
    errno = 0;
    unsigned long long value = strtoull(word, &end, 10);
    *index = (uint32_t)value;
    return errno == 0 && *end == 0 && value <= UINT32_MAX;
}

int main(int count, char **words) {
    uint32_t greatest = 0, index, version = tansyattic_version();
    const uint32_t *function = NULL;
    printf("tansyattic %" PRIu32 ".%" PRIu32 ".%" PRIu32 "\n", version >> 16, version >> 8 & 0xff, version & 0xff);
    for (int i = 1; i < count; i++) {
        if (strcmp(words[i], "-f") != 0) {
            uint32_t status = check(words[i], function);
            if (status > greatest) greatest = status;
        } else if (read_index(words[++i], &index)) {
            function = &index;
        } else {
            fprintf(stderr, "-f: the index of a function stands behind it\n");
            return FAILED;
        }
    }
    return (int)greatest;
}
