/* Several threads over one module: for each file that an argument names, each function's answer, what comes of its body
   operator by operator, and the whole module's answer, first by one thread, and then by each of several at once, in an
   order of its own, over a module that they share. The last line says how many answers there were, how many of them
   were wrong, and how many blocks weren't given back. */
#define _POSIX_C_SOURCE 199309L
#include "calls.h"
#include "counted.h"
#include <pthread.h>

enum { THREADS = 4, ROUNDS = 50 };

static atomic_long answers, wrong;

/* What a thread has: a module of its own, and where it begins. */
struct work {
    struct tansyattic_module module;
    size_t start;
};

static uint8_t bytes[ROOM];
static size_t functions;
static struct walk *expected;

/* The answer of a function; behind them all what comes of each operator by operator; and behind these that of the
   module. */
static void ask(struct tansyattic_module *module, size_t place, struct walk *walk) {
    memset(walk, 0, sizeof *walk);
    if (place < functions)
        tansyattic_validate_function(module, (uint32_t)place, TOLD(&walk->answer));
    else if (place < 2 * functions)
        walk_body(module, (uint32_t)(place - functions), bytes, place % 2 == 0 ? tansyattic_op : tansyattic_try_op, walk);
    else
        tansyattic_validate_module(module, TOLD(&walk->answer));
}

/* Asks over and over, with a module that it shares and frees itself in each round. */
static void *ask_all(void *begun) {
    struct work *work = begun;
    struct walk walk;
    struct tansyattic_module own = TANSYATTIC_NONE;
    size_t places = 2 * functions + 1;
    for (size_t turn = 0; turn < ROUNDS * places; turn++) {
        size_t place = (work->start + turn * (work->start + 1)) % places;
        if (turn % places == 0) add(&wrong, tansyattic_share(&work->module, &own) != TANSYATTIC_VALID);
        ask(turn % 2 == 0 ? &work->module : &own, place, &walk);
        add(&answers, 1);
        add(&wrong, !is_same_walk(&walk, &expected[place]));
    }
    tansyattic_free(&own);
    tansyattic_free(&work->module);
    return NULL;
}

static void try_module(size_t length) {
    struct answer answer;
    struct tansyattic_module module = TANSYATTIC_NONE;
    if (tansyattic_load(bytes, length, TANSYATTIC_FEATURES_ALL, &module, TOLD(&answer)) != TANSYATTIC_VALID) return;
    functions = tansyattic_functions(&module);
    expected = malloc((2 * functions + 1) * sizeof *expected);
    if (expected == NULL) exit(2);
    for (size_t place = 0; place <= 2 * functions; place++) ask(&module, place, &expected[place]);
    pthread_t threads[THREADS];
    struct work work[THREADS];
    for (size_t i = 0; i < THREADS; i++) {
        work[i] = (struct work){TANSYATTIC_NONE, i};
        add(&wrong, tansyattic_share(&module, &work[i].module) != TANSYATTIC_VALID);
        if (pthread_create(&threads[i], NULL, ask_all, &work[i]) != 0) exit(2);
    }
    tansyattic_free(&module);
    for (size_t i = 0; i < THREADS; i++) pthread_join(threads[i], NULL);
    free(expected);
}

int main(int count, char **names) {
    for (int i = 1; i < count; i++) try_module(read_file(names[i], bytes, ROOM));
    printf("%d modules, %ld answers of %d threads at once, %ld wrong, %ld blocks left\n", count - 1, answers, THREADS,
           wrong, blocks);
    return wrong != 0 || blocks != 0 || answers == 0;
}
