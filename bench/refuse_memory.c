/* Refuses memory or threads to a program: loaded before the C library (LD_PRELOAD), it stands in the place of malloc, realloc,
 * calloc and pthread_create.
 *
 * REFUSE is a word: `memory K` refuses the Kth call for memory, `from K` that and all behind it, `threads K` the Kth new thread,
 * `no-threads K` that and all behind it. REFUSE_TALLY names a file of 24 bytes, in which three numbers of 64 bits are counted: calls for
 * memory, new threads, and refusals. It is shared memory, since a program may end without calling anything. A realloc to a lesser
 * size is counted and refused as well.
 *
 * `memory K STEP LAST FILE`, and `from` likewise, refuses the Kth call, the one STEP behind it, and so on, each in a copy of the program of its
 * own (fork), while the program waits for the copy: at the call itself as long as there is one thread, and where the first other one would
 * begin for all calls behind that, until one behind LAST is no longer reached. FILE is the number of an open file, to which each copy adds a
 * record: five numbers of 64 bits, which are K, how it ended (as waitpid has it, or -1 after 60 s), its refusals and the bytes that it wrote on
 * standard output and on standard error; then these bytes. Both have to be files that can be read and cut. */
#define _GNU_SOURCE
#include <dlfcn.h>
#include <errno.h>
#include <fcntl.h>
#include <poll.h>
#include <pthread.h>
#include <signal.h>
#include <stdatomic.h>
#include <stdio.h>
#include <stdlib.h>
#include <string.h>
#include <sys/mman.h>
#include <sys/prctl.h>
#include <sys/stat.h>
#include <sys/syscall.h>
#include <sys/wait.h>
#include <unistd.h>

extern void *__libc_malloc(size_t size);
extern void *__libc_realloc(void *old, size_t size);
extern void *__libc_calloc(size_t count, size_t size);

enum { FAILED = 99, WAITS = 60000 };

struct tally {
    _Atomic unsigned long long memory, threads, refused;
};

static struct tally *tally;
static unsigned long long at, step, last;
static int of_threads, and_behind, by_copies, report;

__attribute__((constructor)) static void begin(void)
{
    const char *word = getenv("REFUSE"), *name = getenv("REFUSE_TALLY");
    int file = name ? open(name, O_RDWR) : -1;
    void *shared = file < 0 ? MAP_FAILED : mmap(0, sizeof *tally, PROT_READ | PROT_WRITE, MAP_SHARED, file, 0);
    if (!word || shared == MAP_FAILED)
        _exit(FAILED);
    close(file);
    of_threads = strstr(word, "threads") != 0;
    and_behind = word[0] == 'f' || word[0] == 'n';
    by_copies = sscanf(strchr(word, ' '), "%llu %llu %llu %d", &at, &step, &last, &report) == 4;
    tally = shared;
}

static void put(const void *bytes, size_t count)
{
    for (const char *from = bytes; count;) {
        ssize_t put = write(report, from, count);
        if (put <= 0)
            _exit(FAILED);
        from += put;
        count -= put;
    }
}

/* The bytes of a file from its beginning, which is empty then. */
static void put_file(int file, unsigned long long size)
{
    static char bytes[65536];
    for (unsigned long long done = 0; done < size;) {
        ssize_t got = pread(file, bytes, sizeof bytes, done);
        if (got <= 0)
            _exit(FAILED);
        put(bytes, got);
        done += got;
    }
    if (ftruncate(file, 0) || lseek(file, 0, SEEK_SET))
        _exit(FAILED);
}

static unsigned long long size_of(int file)
{
    struct stat found;
    if (fstat(file, &found))
        _exit(FAILED);
    return found.st_size;
}

/* How a copy ended. */
static long long ended(pid_t copy)
{
    int status, is_late, file = syscall(SYS_pidfd_open, copy, 0);
    struct pollfd waited = {file, POLLIN, 0};
    if (file < 0)
        _exit(FAILED);
    is_late = poll(&waited, 1, WAITS) != 1;
    close(file);
    if (is_late)
        kill(copy, SIGKILL);
    if (waitpid(copy, &status, 0) != copy)
        _exit(FAILED);
    return is_late ? -1 : status;
}

/* Whether this is the copy, to which the next call is refused; the program itself goes on once the copy has ended. */
static int is_copy(void)
{
    unsigned long long record[5], memory = tally->memory, threads = tally->threads;
    pid_t copy = fork();
    if (copy < 0)
        _exit(FAILED);
    if (copy == 0) {
        prctl(PR_SET_PDEATHSIG, SIGKILL);
        by_copies = 0;
        close(report);
        return 1;
    }
    record[0] = at;
    record[1] = ended(copy);
    record[2] = tally->refused;
    record[3] = size_of(1);
    record[4] = size_of(2);
    put(record, sizeof record);
    put_file(1, record[3]);
    put_file(2, record[4]);
    tally->memory = memory;
    tally->threads = threads;
    tally->refused = 0;
    at += step;
    return record[2] == 0 && record[0] > last ? -1 : 0;
}

/* Whether this call, which is counted, is to be refused. */
static int refuses(_Atomic unsigned long long *count, int for_threads)
{
    unsigned long long number = atomic_fetch_add(count, 1) + 1;
    if (for_threads != of_threads)
        return 0;
    if (by_copies && (number != at || is_copy() != 1))
        return 0;
    if (!(number == at || (and_behind && number > at)))
        return 0;
    atomic_fetch_add(&tally->refused, 1);
    return 1;
}

static int refuses_memory(void)
{
    if (!tally || !refuses(&tally->memory, 0))
        return 0;
    errno = ENOMEM;
    return 1;
}

void *malloc(size_t size)
{
    return refuses_memory() ? 0 : __libc_malloc(size);
}

void *realloc(void *old, size_t size)
{
    return refuses_memory() ? 0 : __libc_realloc(old, size);
}

void *calloc(size_t count, size_t size)
{
    return refuses_memory() ? 0 : __libc_calloc(count, size);
}

/* Makes the copies of all calls behind the first thread, each of which begins it; ends the program after them. */
static void end_with_copies(void)
{
    int how;
    while ((how = is_copy()) == 0)
        ;
    if (how < 0)
        _exit(0);
}

int pthread_create(pthread_t *thread, const pthread_attr_t *how, void *(*begin)(void *), void *given)
{
    static int (*real)(pthread_t *, const pthread_attr_t *, void *(*)(void *), void *);
    if (tally && by_copies)
        end_with_copies();
    if (tally && refuses(&tally->threads, 1))
        return EAGAIN;
    if (!real)
        *(void **)&real = dlsym(RTLD_NEXT, "pthread_create");
    return real(thread, how, begin, given);
}
