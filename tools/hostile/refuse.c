/* Loaded beside a program (LD_PRELOAD), refuses each of its allocations in turn: before an allocation the process forks,
   and in the child that one allocation fails and the run goes on to its end, which the parent then looks at.

   HOSTILE_WHOLE: a file with all that the program prints where nothing is refused
   HOSTILE_CHILD: a file for what a child prints
   HOSTILE_STATUS: the status of the program where nothing is refused
   HOSTILE_FROM, HOSTILE_EVERY: the number of the first allocation that is refused, and of how many each is
   HOSTILE_REPORT: a file for one line about each child that ended otherwise than it may, and one for all

   A child may end with 7 and a front of the text, or as if nothing had been refused. */
#define _GNU_SOURCE
#include <dlfcn.h>
#include <errno.h>
#include <fcntl.h>
#include <stdarg.h>
#include <stdio.h>
#include <stdlib.h>
#include <string.h>
#include <sys/mman.h>
#include <sys/stat.h>
#include <sys/uio.h>
#include <sys/wait.h>
#include <unistd.h>

static void *(*next_malloc)(size_t);
static void *(*next_calloc)(size_t, size_t);
static void *(*next_realloc)(void *, size_t);
static int (*next_posix_memalign)(void **, size_t, size_t);
static void *(*next_aligned_alloc)(size_t, size_t);
static ssize_t (*next_write)(int, const void *, size_t);
static ssize_t (*next_writev)(int, const struct iovec *, int);

static int is_ready, is_child, whole_status, report;
static long count, first = 1, every = 1, ended_with_7, ended_as_ever, otherwise;
static size_t written, whole_length;
static const char *whole, *child_file;

static long number(const char *name, long otherwise_this) {
    const char *text = getenv(name);
    return text ? atol(text) : otherwise_this;
}

static void say(const char *form, ...) {
    char line[256];
    va_list rest;
    va_start(rest, form);
    int length = vsnprintf(line, sizeof line, form, rest);
    va_end(rest);
    if (report > 0 && length > 0) next_write(report, line, (size_t)length);
}

static void find(void) {
    next_malloc = dlsym(RTLD_NEXT, "malloc");
    next_realloc = dlsym(RTLD_NEXT, "realloc");
    next_posix_memalign = dlsym(RTLD_NEXT, "posix_memalign");
    next_aligned_alloc = dlsym(RTLD_NEXT, "aligned_alloc");
    next_write = dlsym(RTLD_NEXT, "write");
    next_writev = dlsym(RTLD_NEXT, "writev");
    next_calloc = dlsym(RTLD_NEXT, "calloc");
}

/* What the child printed, which has to be what is still to come, or its front. */
static size_t child_length(int *is_front) {
    struct stat kept;
    int file = open(child_file, O_RDONLY);
    *is_front = 0;
    if (file < 0 || fstat(file, &kept) < 0) return 0;
    size_t length = (size_t)kept.st_size;
    if (length == 0) {
        *is_front = 1;
    } else if (length <= whole_length - written) {
        char *text = mmap(NULL, length, PROT_READ, MAP_PRIVATE, file, 0);
        *is_front = memcmp(text, whole + written, length) == 0;
        munmap(text, length);
    }
    close(file);
    return length;
}

static void look_at(int status) {
    int is_front;
    size_t length = child_length(&is_front);
    int code = WIFEXITED(status) ? WEXITSTATUS(status) : 1000 + WTERMSIG(status);
    if (code == 7 && is_front) {
        ended_with_7++;
    } else if (code == whole_status && is_front && length == whole_length - written) {
        ended_as_ever++;
    } else {
        otherwise++;
        say("allocation %ld: status %d, %s of the text\n", count, code, is_front ? "a front" : "NO front");
    }
}

/* Whether this allocation is to fail: in the child that this one was forked for. */
static int is_refused(void) {
    if (!is_ready || is_child) return 0;
    count++;
    if (count < first || (count - first) % every != 0) return 0;
    pid_t child = fork();
    if (child == 0) {
        is_child = 1;
        int out = open(child_file, O_WRONLY | O_CREAT | O_TRUNC, 0600);
        int err = open("/dev/null", O_WRONLY);
        dup2(out, 1);
        dup2(err, 2);
        alarm(100);
        errno = ENOMEM;
        return 1;
    }
    int status = 0;
    if (child > 0 && waitpid(child, &status, 0) == child) look_at(status);
    return 0;
}

__attribute__((constructor)) static void begin(void) {
    find();
    child_file = getenv("HOSTILE_CHILD");
    const char *file = getenv("HOSTILE_WHOLE");
    if (!child_file || !file) return;
    report = open(getenv("HOSTILE_REPORT"), O_WRONLY | O_CREAT | O_APPEND, 0600);
    struct stat kept;
    int at = open(file, O_RDONLY);
    if (at < 0 || fstat(at, &kept) < 0) return;
    whole_length = (size_t)kept.st_size;
    whole = whole_length ? mmap(NULL, whole_length, PROT_READ, MAP_PRIVATE, at, 0) : "";
    close(at);
    whole_status = (int)number("HOSTILE_STATUS", 0);
    first = number("HOSTILE_FROM", 1);
    every = number("HOSTILE_EVERY", 1);
    unsetenv("LD_PRELOAD");
    is_ready = 1;
}

__attribute__((destructor)) static void end(void) {
    if (is_ready && !is_child) say("allocations %ld, refused %ld: status 7 %ld, as ever %ld, otherwise %ld\n", count, ended_with_7 + ended_as_ever + otherwise, ended_with_7, ended_as_ever, otherwise);
}

void *malloc(size_t size) {
    if (!next_malloc) find();
    return is_refused() ? NULL : next_malloc(size);
}

void *calloc(size_t n, size_t size) {
    static char early[4096];
    if (!next_calloc) return early;
    return is_refused() ? NULL : next_calloc(n, size);
}

void *realloc(void *at, size_t size) {
    return is_refused() ? NULL : next_realloc(at, size);
}

int posix_memalign(void **at, size_t align, size_t size) {
    return is_refused() ? ENOMEM : next_posix_memalign(at, align, size);
}

void *aligned_alloc(size_t align, size_t size) {
    return is_refused() ? NULL : next_aligned_alloc(align, size);
}

ssize_t write(int file, const void *bytes, size_t n) {
    ssize_t done = next_write(file, bytes, n);
    if (file == 1 && done > 0 && !is_child) written += (size_t)done;
    return done;
}

ssize_t writev(int file, const struct iovec *parts, int n) {
    ssize_t done = next_writev(file, parts, n);
    if (file == 1 && done > 0 && !is_child) written += (size_t)done;
    return done;
}
