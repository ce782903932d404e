/* Preloaded by failing-allocations into a program under test: at each allocation (or each Nth) the process forks, the
   child's allocation fails and the child runs on to its end, and the parent waits for it, judges how it ended, and goes
   on. So one run tries every allocation, and each failure costs only what follows it. */
#include <fcntl.h>
#include <stdio.h>
#include <stdlib.h>
#include <string.h>
#include <sys/wait.h>
#include <unistd.h>

extern void *__libc_malloc(size_t);
extern void *__libc_realloc(void *, size_t);
extern void *__libc_calloc(size_t, size_t);
extern void *__libc_memalign(size_t, size_t);

enum { FILES = 16, PIECE = 4096, SECONDS = 60 };

static long seen, every;
static int is_off = 1, wanted, refused;
static const char *normal, *ended, *report;

static void start(void) __attribute__((constructor));
static void start(void) {
    every = atol(getenv("FAILING_EVERY"));
    wanted = atoi(getenv("FAILING_STATUS"));
    refused = atoi(getenv("FAILING_ERROR"));
    normal = getenv("FAILING_NORMAL");
    ended = getenv("FAILING_ENDED");
    report = getenv("FAILING_REPORT");
    is_off = 0;
}

static void finish(void) __attribute__((destructor));
static void finish(void) {
    if (is_off) return;
    char line[64];
    int file = open(report, O_WRONLY | O_CREAT | O_APPEND, 0600);
    int length = snprintf(line, sizeof line, "%ld\n", seen);
    if (write(file, line, length) != length) _exit(125);
    close(file);
}

/* Whether what the child wrote is what the normal run writes from this place on. */
static int is_normal(off_t from) {
    char mine[PIECE], other[PIECE];
    int left = open(ended, O_RDONLY), right = open(normal, O_RDONLY), same = 1;
    lseek(right, from, SEEK_SET);
    for (;;) {
        ssize_t a = read(left, mine, PIECE), b = read(right, other, PIECE);
        if (a != b || a < 0 || memcmp(mine, other, a)) same = 0;
        if (!same || a == 0) break;
    }
    close(left);
    close(right);
    return same;
}

/* Says that the child of this allocation ended neither with the error nor as the normal run does. */
static void tell(int status) {
    char line[256];
    int file = open(report, O_WRONLY | O_CREAT | O_APPEND, 0600);
    int length = WIFSIGNALED(status)
        ? snprintf(line, sizeof line, "allocation %ld: ended by signal %d: ", seen, WTERMSIG(status))
        : snprintf(line, sizeof line, "allocation %ld: ended with status %d: ", seen, WEXITSTATUS(status));
    if (write(file, line, length) != length) _exit(125);
    int said = open(ended, O_RDONLY);
    ssize_t count = read(said, line, sizeof line - 1);
    if (count < 0) count = 0;
    char *stop = memchr(line, '\n', count);
    if (stop) count = stop - line;
    line[count] = '\n';
    if (write(file, line, count + 1) != count + 1) _exit(125);
    close(said);
    close(file);
}

/* Whether this allocation is to fail. */
static int fails(void) {
    if (is_off) return 0;
    seen++;
    if (seen % every) return 0;
    off_t places[FILES];
    for (int i = 0; i < FILES; i++) places[i] = lseek(i, 0, SEEK_CUR);
    pid_t child = fork();
    if (child < 0) _exit(125);
    if (child == 0) {
        is_off = 1;
        alarm(SECONDS);
        int file = open(ended, O_WRONLY | O_CREAT | O_TRUNC, 0600);
        dup2(file, 1);
        close(file);
        return 1;
    }
    int status;
    waitpid(child, &status, 0);
    for (int i = 0; i < FILES; i++)
        if (places[i] >= 0) lseek(i, places[i], SEEK_SET);
    int is_error = WIFEXITED(status) && WEXITSTATUS(status) == refused;
    int is_as_ever = WIFEXITED(status) && WEXITSTATUS(status) == wanted && is_normal(places[1]);
    if (!is_error && !is_as_ever) tell(status);
    return 0;
}

void *malloc(size_t size) { return fails() ? NULL : __libc_malloc(size); }

void *realloc(void *old, size_t size) { return fails() ? NULL : __libc_realloc(old, size); }

void *calloc(size_t count, size_t size) { return fails() ? NULL : __libc_calloc(count, size); }

void *aligned_alloc(size_t align, size_t size) { return fails() ? NULL : __libc_memalign(align, size); }

int posix_memalign(void **out, size_t align, size_t size) {
    if (fails()) return 12;
    *out = __libc_memalign(align, size);
    return *out ? 0 : 12;
}
