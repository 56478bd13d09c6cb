/* Runs a program many times, and refuses one allocation in each run. Needs glibc.
 *
 * The object is preloaded into the program. Before `main` begins it forks the process once for each run, and the child goes on to
 * `main`. It asks three variables of the environment:
 *
 *     REFUSED_TO      the descriptor to which it writes what comes of the runs
 *     REFUSED_DENSE   the allocations up to this one are refused each in a run of its own
 *     REFUSED_STEP    of the later ones each with this distance from the one before
 *
 * The first run refuses nothing. A record is a line of five numbers, then what the run wrote on standard output, and what it wrote on
 * standard error. The numbers are the refused allocation (0 for none), how many the run asked for, its status as `wait` tells it, and
 * the lengths of the two texts. The last record is followed by the line `end`.
 */
#define _GNU_SOURCE
#include <errno.h>
#include <stdio.h>
#include <stdlib.h>
#include <string.h>
#include <sys/mman.h>
#include <sys/wait.h>
#include <unistd.h>

/* no run takes as many seconds */
#define LIMIT 60

extern void *__libc_malloc(size_t);
extern void *__libc_calloc(size_t, size_t);
extern void *__libc_realloc(void *, size_t);
extern void *__libc_memalign(size_t, size_t);

/* which allocation is refused, counted from 1; none at 0 */
static unsigned long refused;
static unsigned long local;
/* how many were asked for, where the parent can read it */
static unsigned long *asked = &local;

static int refuses(void)
{
    *asked += 1;
    if (*asked != refused)
        return 0;
    errno = ENOMEM;
    return 1;
}

void *malloc(size_t size)
{
    return refuses() ? NULL : __libc_malloc(size);
}

void *calloc(size_t count, size_t size)
{
    return refuses() ? NULL : __libc_calloc(count, size);
}

void *realloc(void *old, size_t size)
{
    return refuses() ? NULL : __libc_realloc(old, size);
}

void *memalign(size_t alignment, size_t size)
{
    return refuses() ? NULL : __libc_memalign(alignment, size);
}

void *aligned_alloc(size_t alignment, size_t size)
{
    return memalign(alignment, size);
}

int posix_memalign(void **result, size_t alignment, size_t size)
{
    void *made = memalign(alignment, size);
    if (!made)
        return ENOMEM;
    *result = made;
    return 0;
}

static void fail(const char *what)
{
    dprintf(2, "refused.c: %s: %s\n", what, strerror(errno));
    _exit(125);
}

static unsigned long number(const char *name)
{
    const char *text = getenv(name);
    if (!text)
        fail(name);
    return strtoul(text, NULL, 10);
}

static void put(int to, const char *bytes, size_t length)
{
    while (length) {
        ssize_t done = write(to, bytes, length);
        if (done < 0)
            fail("write");
        bytes += done;
        length -= done;
    }
}

/* Passes on what stands in a file. */
static void pass(int from, int to, size_t length)
{
    char room[65536];
    off_t at = 0;
    while (length) {
        ssize_t done = pread(from, room, length < sizeof room ? length : sizeof room, at);
        if (done <= 0)
            fail("pread");
        put(to, room, done);
        at += done;
        length -= done;
    }
}

static size_t length_of(int file)
{
    off_t end = lseek(file, 0, SEEK_END);
    if (end < 0)
        fail("lseek");
    return end;
}

static void clear(int file)
{
    if (ftruncate(file, 0) || lseek(file, 0, SEEK_SET))
        fail("ftruncate");
}

/* Waits for a run, and writes its record. */
static void record(pid_t child, int to, int out, int err)
{
    char line[128];
    int status;
    size_t outs, errs;
    if (waitpid(child, &status, 0) != child)
        fail("waitpid");
    outs = length_of(out);
    errs = length_of(err);
    put(to, line, snprintf(line, sizeof line, "%lu %lu %d %zu %zu\n", refused, *asked, status, outs, errs));
    pass(out, to, outs);
    pass(err, to, errs);
}

__attribute__((constructor)) static void runs(void)
{
    int to = number("REFUSED_TO"), out = memfd_create("out", MFD_CLOEXEC), err = memfd_create("err", MFD_CLOEXEC);
    unsigned long dense = number("REFUSED_DENSE"), step = number("REFUSED_STEP"), all = 0;
    asked = mmap(NULL, sizeof *asked, PROT_READ | PROT_WRITE, MAP_SHARED | MAP_ANONYMOUS, -1, 0);
    if (out < 0 || err < 0 || asked == MAP_FAILED)
        fail("no room");
    for (refused = 0; refused <= all; refused += refused < dense ? 1 : step) {
        pid_t child;
        clear(out);
        clear(err);
        *asked = 0;
        child = fork();
        if (child < 0)
            fail("fork");
        if (child == 0) {
            if (dup2(out, 1) < 0 || dup2(err, 2) < 0 || close(to))
                fail("dup2");
            alarm(LIMIT);
            return;
        }
        record(child, to, out, err);
        if (refused == 0)
            all = *asked;
    }
    put(to, "end\n", 4);
    _exit(0);
}
