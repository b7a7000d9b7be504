/* A test under want of memory. It is loaded before a program of tests (LD_PRELOAD), and stands in for its main, its
   requests for memory and its writes. The test that is named to the program is run once; at each of its requests a child
   goes on in its place, in which this request is refused:

   - the test ends its process since memory is wanting: by an abort, as a failed expectation does, but what it says last
     is that, and where;
   - before it ends no other request is made. So want of memory is answered for this request and there, nothing is tried
     again, and what the test looks at behind it takes no memory.

   A test that says `there is memory again` may make requests from there on. One that says `there is no memory` makes none
   until then: each is refused, and is wrong.

   A crash, or a minute without an end, is wrong. Prints a line for the test: `NAME: N requests, M wrong`. */
#include "preloaded.h"
#include <sys/prctl.h>

/* What a test says last for which memory was wanting, up to the place in expectations.rt where it stops; and what the
   harness says of a child. */
static const char wanting[] = "memory is wanting\n\ntest stopped at src/expectations.rt:";
static const char asked_again[] = "a request behind the refused one\n";
static const char asked_nothing[] = "a request where there is no memory\n";

static int is_running, is_child, is_wanting, is_barred;
static long requests, wrong;
static int said;

ssize_t write(int fd, const void *from, size_t size) {
    ORIGINAL(write);
    if (is_running && memmem(from, size, "there is memory again", 21)) is_wanting = is_barred = 0;
    if (is_running && memmem(from, size, "there is no memory", 18)) is_barred = 1;
    return original(fd, from, size);
}

/* Whether what a child said last is that memory is wanting, in lines of its own. */
static int has_said_wanting(void) {
    char text[4096];
    off_t all = lseek(said, 0, SEEK_END), room = sizeof text - 1;
    ssize_t size = pread(said, text, room, all > room ? all - room : 0);
    text[size < 0 ? 0 : size] = 0;
    const char *last = NULL;
    for (const char *at = text; (at = strstr(at, wanting)); at++) last = at;
    if (!last || (last > text && last[-1] != '\n')) return 0;
    const char *place = last + sizeof wanting - 1;
    size_t length = strspn(place, "0123456789:");
    return length > 0 && strcmp(place + length, "\n") == 0;
}

/* Ends a child that is wrong, and says why. */
static void end_wrong(const char *why, size_t size) {
    is_running = 0;
    if (write(2, why, size) < 0) _exit(3);
    _exit(3);
}

/* Has a child go on in which the request that is made now is refused, and waits for its end in the parent. Whether
   this is the child. */
static int go_on_refused(void) {
    if (ftruncate(said, 0) || lseek(said, 0, SEEK_SET)) _exit(2);
    pid_t child = fork();
    if (child < 0) _exit(2);
    if (child == 0) {
        is_child = is_wanting = 1;
        prctl(PR_SET_DUMPABLE, 0);
        alarm(60);
        dup2(said, 1);
        dup2(said, 2);
        return 1;
    }
    int status;
    waitpid(child, &status, 0);
    if (WIFSIGNALED(status) && WTERMSIG(status) == SIGABRT && has_said_wanting()) return 0;
    if (++wrong > 3) return 0;
    is_running = 0;
    char text[1024];
    ssize_t size = pread(said, text, sizeof text - 1, 0);
    fprintf(stderr, "request %ld: status %x, said: %.*s\n", requests, status, (int)(size < 0 ? 0 : size), text);
    is_running = 1;
    return 0;
}

static int is_refused(void) {
    if (!is_running) return 0;
    if (is_barred && is_child) end_wrong(asked_nothing, sizeof asked_nothing - 1);
    if (is_barred) return ++wrong, 1;
    if (is_child && is_wanting) end_wrong(asked_again, sizeof asked_again - 1);
    if (is_child) return 0;
    ++requests;
    return go_on_refused();
}

static int run_instead(int count, char **words, char **environment) {
    static char out[BUFSIZ], err[BUFSIZ];
    if (count < 2 || words[1][0] == '-') return program(count, words, environment);
    said = memfd_create("said", 0);
    if (said < 0) return 2;
    setvbuf(stdout, out, _IOLBF, sizeof out);
    setvbuf(stderr, err, _IOLBF, sizeof err);
    is_running = 1;
    int status = program(count, words, environment);
    is_running = 0;
    if (is_child) return status;
    printf("%s: %ld requests, %ld wrong\n", words[1], requests, wrong);
    return status || wrong > 0;
}
