/* What stands in for a program's main and for its requests for memory, where it is loaded before the program
   (LD_PRELOAD). What includes it says what runs in the place of main, and which requests are refused. */
#define _GNU_SOURCE
#include <dlfcn.h>
#include <errno.h>
#include <signal.h>
#include <stddef.h>
#include <stdio.h>
#include <stdlib.h>
#include <string.h>
#include <sys/mman.h>
#include <sys/wait.h>
#include <unistd.h>

typedef int main_function(int, char **, char **);

/* What runs in the place of the program's main. */
static main_function run_instead;

/* Whether the request for memory that is made now is refused. */
static int is_refused(void);

static main_function *program;

static void *found(const char *name) {
    void *function = dlsym(RTLD_NEXT, name);
    if (!function) _exit(2);
    return function;
}

/* Declares `original`, which is what the program would call by this name without what stands here. */
#define ORIGINAL(name)                    \
    static __typeof__(&name) original;    \
    if (!original) original = found(#name)

void *malloc(size_t size) {
    ORIGINAL(malloc);
    return is_refused() ? NULL : original(size);
}

void *realloc(void *old, size_t size) {
    ORIGINAL(realloc);
    return is_refused() ? NULL : original(old, size);
}

int __libc_start_main(main_function *main, int count, char **words, void (*init)(void), void (*fini)(void),
                      void (*loader_fini)(void), void *stack_end) {
    ORIGINAL(__libc_start_main);
    program = main;
    return original(run_instead, count, words, init, fini, loader_fini, stack_end);
}
