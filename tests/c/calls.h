/* What the callers of the library here and in bench share: answers with their texts, a body that is taken operator by
   operator, files and seconds. */
#include "tansyattic.h"
#include <stdio.h>
#include <stdlib.h>
#include <string.h>
#include <time.h>

enum { TEXT = 200, SHOWN = 8, ROOM = 1 << 16 };

/* What one call tells; nothing, where it isn't made. */
struct answer {
    struct tansyattic_verdict verdict;
    uint8_t text[TEXT];
};
#define TOLD(answer) (answer)->text, TEXT, &(answer)->verdict

/* Whether two answers, which were cleared before, are the same. */
static inline bool is_same(const struct answer *a, const struct answer *b) {
    const struct tansyattic_verdict *v = &a->verdict, *w = &b->verdict;
    return v->status == w->status && v->kind == w->kind && v->reason == w->reason && v->index == w->index &&
           v->offset == w->offset && v->text_length == w->text_length && v->text_needed == w->text_needed &&
           v->accepted == w->accepted && v->refused == w->refused && v->not_covered == w->not_covered &&
           memcmp(a->text, b->text, TEXT) == 0;
}

static inline uint64_t mixed(uint64_t picture, uint64_t number) { return (picture ^ number) * 0x100000001b3u; }

static inline uint64_t mixed_type(uint64_t picture, const struct tansyattic_type *type) {
    uint64_t flags = type->nullable | (uint64_t)type->shared << 1 | (uint64_t)type->exact << 2;
    return mixed(mixed(mixed(picture, type->code), type->index), flags);
}

/* A number that stands for what lies on the stacks: how much, and the first of it from the top. */
static inline uint64_t picture_of(struct tansyattic_function *function) {
    struct tansyattic_type type;
    struct tansyattic_frame frame;
    uint64_t picture = mixed(tansyattic_operands(function), tansyattic_frames(function));
    for (uint64_t depth = 0; depth < SHOWN && tansyattic_operand(function, depth, &type) != 0; depth++)
        picture = mixed_type(picture, &type);
    for (uint64_t depth = 0; depth < SHOWN && tansyattic_frame(function, depth, &frame) != 0; depth++) {
        picture = mixed(mixed(picture, frame.height), frame.kind + 16 * frame.block_kind + 256 * frame.unreachable);
        picture = mixed(mixed_type(picture, &frame.block_type), frame.block_index);
    }
    return picture;
}

/* What comes of a body: the last answer, how many operators were accepted, what lay on the stacks behind each, and
   whether the end was reached. */
struct walk {
    struct answer answer;
    uint64_t operators, picture;
    bool is_at_end;
};

static inline bool is_same_walk(const struct walk *a, const struct walk *b) {
    return is_same(&a->answer, &b->answer) && a->operators == b->operators && a->picture == b->picture;
}

/* tansyattic_op or tansyattic_try_op. */
typedef uint32_t take_op(struct tansyattic_function *, const uint8_t *, size_t, uint64_t, size_t *, uint8_t *, size_t,
                         struct tansyattic_verdict *);

/* Goes through the body of the function at this index, by this call. Answers the status: that of the first call that
   doesn't accept, or of the end. */
static inline uint32_t walk_body(struct tansyattic_module *module, uint32_t index, const uint8_t *bytes, take_op *take,
                                 struct walk *walk) {
    struct tansyattic_function function = TANSYATTIC_NONE;
    uint64_t at = 0, behind = 0;
    memset(walk, 0, sizeof *walk);
    uint32_t status = tansyattic_begin_body(module, index, &function, &at, &behind, TOLD(&walk->answer));
    while (status == TANSYATTIC_VALID && at < behind) {
        size_t taken = 0;
        status = take(&function, bytes + at, (size_t)(behind - at), at, &taken, TOLD(&walk->answer));
        if (status != TANSYATTIC_VALID) break;
        at += taken;
        ++walk->operators;
        walk->picture = mixed(walk->picture, picture_of(&function));
    }
    walk->is_at_end = status == TANSYATTIC_VALID;
    if (walk->is_at_end) status = tansyattic_finish(&function, at, TOLD(&walk->answer));
    tansyattic_free_function(&function);
    return status;
}

/* Reads a file into so much room, and answers how long it is; ends the process where it can't. */
static inline size_t read_file(const char *name, uint8_t *room, size_t size) {
    FILE *file = fopen(name, "rb");
    if (file == NULL) exit(2);
    size_t length = fread(room, 1, size, file);
    fclose(file);
    return length;
}

static inline double seconds(void) {
    struct timespec now;
    clock_gettime(CLOCK_MONOTONIC, &now);
    return (double)now.tv_sec + (double)now.tv_nsec / 1e9;
}
