/* The program opcheck or wasmcheck under faults. It is loaded before the program (LD_PRELOAD), and stands in for its
   main, its requests for memory, its reads and its writes. For each script or module that an argument names, a
   child runs the program with ample memory, and then one child for each fault. Of opcheck:

   - a request for memory is refused: one, or all from one on. It ends with status 3, says `out of memory`, and
     has printed whole lines that begin the ample output: no refused request is made good;
   - a read fails: `bad script: input`, status 2, and nothing on standard output;
   - a write to standard output fails: status 3, and nothing on standard error;
   - a write to standard error fails: the status and standard output stay;
   - reads and writes move one byte each, or are interrupted: the answer stays.

   Of wasmcheck, which runs with `-v`, all proposals, `--explain` and `--trace=0`, where it differs:

   - a request for memory is refused: status 3, and whole lines, each of the ample output but those that end in
     `out of memory`;
   - a read or a write fails: status 3, and what is printed begins the ample output.

   A crash, or ten seconds without an end, is wrong. Prints a line for each: `NAME: N runs, M wrong`. */
#include "preloaded.h"

#define ROOM (1 << 20)

/* What a run did, which its child leaves here. */
struct seen {
    long requests, reads, writes, refused_write;
    size_t length[3];
    char text[3][ROOM];
};

/* Which request, read or write fails, none at 0. */
struct faults {
    long request, requests_from, read, write;
    int is_short, is_interrupted;
};

static struct seen *seen, *ample;
static struct faults faults;
static char given[ROOM];
static size_t length, taken;
static int is_running, is_odd, is_of_modules;

static int is_refused(void) {
    if (!is_running) return 0;
    long number = ++seen->requests;
    return number == faults.request || (faults.requests_from && number >= faults.requests_from);
}

/* Whether this read or write is interrupted first: each other one is. */
static int is_interrupted(void) {
    is_odd = !is_odd;
    return faults.is_interrupted && is_odd;
}

ssize_t read(int fd, void *to, size_t size) {
    ORIGINAL(read);
    if (!is_running || fd != 0) return original(fd, to, size);
    if (is_interrupted()) return errno = EINTR, -1;
    if (++seen->reads == faults.read) return errno = EIO, -1;
    size_t moved = length - taken < size ? length - taken : size;
    if (faults.is_short && moved > 1) moved = 1;
    memcpy(to, given + taken, moved);
    taken += moved;
    return moved;
}

ssize_t write(int fd, const void *from, size_t size) {
    ORIGINAL(write);
    if (!is_running || (fd != 1 && fd != 2)) return original(fd, from, size);
    if (is_interrupted()) return errno = EINTR, -1;
    if (++seen->writes == faults.write) return seen->refused_write = fd, errno = ENOSPC, -1;
    size_t moved = faults.is_short && size > 1 ? 1 : size;
    if (seen->length[fd] + moved > ROOM) abort();
    memcpy(seen->text[fd] + seen->length[fd], from, moved);
    seen->length[fd] += moved;
    return moved;
}

/* Runs the program under these faults. Gives its status, or -1 where a signal ended it. */
static int run(struct faults these) {
    memset(seen, 0, offsetof(struct seen, text));
    pid_t child = fork();
    if (child < 0) _exit(2);
    if (child == 0) {
        char *of_modules[] = {"wasmcheck", "-v", "--features=all", "--explain", "--trace=0", NULL};
        char *of_scripts[] = {"opcheck", NULL};
        char *environment[] = {NULL};
        alarm(10);
        faults = these;
        is_running = 1;
        _exit(is_of_modules ? program(5, of_modules, environment) : program(1, of_scripts, environment));
    }
    int status;
    waitpid(child, &status, 0);
    return WIFEXITED(status) ? WEXITSTATUS(status) : -1;
}

/* What was printed, and said on standard error, beside texts and the ample output. */
static int has(int fd, const char *text) {
    return seen->length[fd] == strlen(text) && memcmp(seen->text[fd], text, seen->length[fd]) == 0;
}

static int begins_ample(int fd) {
    return seen->length[fd] <= ample->length[fd] && memcmp(seen->text[fd], ample->text[fd], seen->length[fd]) == 0;
}

static int is_same(int fd) { return seen->length[fd] == ample->length[fd] && begins_ample(fd); }

static int has_whole_lines(void) { return !seen->length[1] || seen->text[1][seen->length[1] - 1] == '\n'; }

/* Whether each line that is printed is one of the ample output, in its order, or says `out of memory`. */
static int has_lines_of_ample(void) {
    static const char said[] = "out of memory\n";
    const char *from = ample->text[1], *end = from + ample->length[1];
    for (const char *line = seen->text[1], *next; line < seen->text[1] + seen->length[1]; line = next) {
        next = (const char *)memchr(line, '\n', ROOM) + 1;
        size_t size = next - line;
        if (size >= sizeof said - 1 && memcmp(next - (sizeof said - 1), said, sizeof said - 1) == 0) continue;
        from = memmem(from, end - from, line, size);
        if (!from) return 0;
        from += size;
    }
    return 1;
}

/* The runs of a script under faults, how many were wrong, and the status with ample memory. */
static long runs, wrong;
static int status;

/* Whether a run under these faults ended as it has to. */
static int is_right(const struct faults *these, int ended) {
    if (these->request || these->requests_from)
        return ended == 3 && has_whole_lines() &&
               (is_of_modules ? has_lines_of_ample() : has(2, "out of memory\n") && begins_ample(1));
    if (these->read)
        return has(1, "") && (is_of_modules ? ended == 3 : ended == 2 && has(2, "bad script: input\n"));
    if (these->write && is_of_modules) return ended == 3 && begins_ample(1);
    if (these->write && seen->refused_write == 1) return ended == 3 && has(2, "") && begins_ample(1);
    return ended == status && is_same(1) && (these->write || is_same(2));
}

static void expect(const char *name, const struct faults *these, int ended, int met) {
    ++runs;
    if (met || ++wrong > 3) return;
    printf("%s: request %ld, or from %ld, read %ld, write %ld: status %d, %zu bytes printed, said: %.*s\n", name,
           these->request, these->requests_from, these->read, these->write, ended, seen->length[1],
           (int)seen->length[2], seen->text[2]);
}

/* Runs the program under these faults, and counts that if the read or the write that fails is made. Whether it is. */
static int is_met(const char *name, struct faults these) {
    int ended = run(these);
    if (seen->reads < these.read || (these.write && !seen->refused_write)) return 0;
    expect(name, &these, ended, is_right(&these, ended));
    return 1;
}

static void run_all(const char *name) {
    struct faults none = {0};
    runs = wrong = 0;
    status = run(none);
    memcpy(ample, seen, sizeof *ample);
    expect(name, &none, status, (0 <= status && status <= 2) || (is_of_modules && (status == 4 || status == 7)));
    for (long k = 1; k <= ample->requests; ++k) {
        is_met(name, (struct faults){.request = k});
        is_met(name, (struct faults){.requests_from = k});
    }
    for (long k = 1; is_met(name, (struct faults){.read = k, .is_short = 1});) ++k;
    for (long k = 1; is_met(name, (struct faults){.write = k, .is_short = 1});) ++k;
    for (int how = 1; how <= 3; ++how) is_met(name, (struct faults){.is_short = how & 1, .is_interrupted = how >> 1});
    printf("%s: %ld runs, %ld wrong\n", name, runs, wrong);
}

/* Reads a script or a module whole. */
static int read_given(const char *name) {
    FILE *file = fopen(name, "rb");
    if (!file) return 0;
    length = fread(given, 1, sizeof given, file);
    return fclose(file) == 0 && length < sizeof given;
}

static int run_instead(int count, char **names, char **environment) {
    (void)environment;
    seen = mmap(NULL, sizeof *seen, PROT_READ | PROT_WRITE, MAP_SHARED | MAP_ANONYMOUS, -1, 0);
    ample = malloc(sizeof *ample);
    if (seen == MAP_FAILED || !ample) return 2;
    setvbuf(stdout, NULL, _IOLBF, 0);
    size_t length_of_name = strlen(names[0]);
    is_of_modules = length_of_name >= 9 && strcmp(names[0] + length_of_name - 9, "wasmcheck") == 0;
    int is_bad = 0;
    for (int i = 1; i < count; ++i) {
        if (!read_given(names[i])) return 2;
        run_all(names[i]);
        is_bad |= wrong > 0;
    }
    return is_bad;
}
