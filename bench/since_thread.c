/* Loaded before the C library by bench/paths.py and bench/real.py: at the end of the process it writes three numbers into the file that SINCE_FILE
   names: the nanoseconds of processors that the process took since it last began a thread, those that passed since, and how many threads it
   began. Questions about paths begin none, so in a run with these alone the last thread is the session's, and reading and the first analysis
   are left out. ECOs begin some: with SINCE_THREAD=N the N-th thread counts in place of the last. */
#define _GNU_SOURCE
#include <dlfcn.h>
#include <pthread.h>
#include <stdatomic.h>
#include <stdio.h>
#include <stdlib.h>
#include <sys/syscall.h>
#include <time.h>
#include <unistd.h>

static struct timespec begun, begun_at;
static atomic_int threads;

int pthread_create(pthread_t *thread, const pthread_attr_t *attributes, void *(*routine)(void *), void *argument) {
  static int (*create)(pthread_t *, const pthread_attr_t *, void *(*)(void *), void *);
  if (!create) create = dlsym(RTLD_NEXT, "pthread_create");
  const char *wanted = getenv("SINCE_THREAD");
  int number = ++threads;
  if (!wanted || number == atoi(wanted)) {
    clock_gettime(CLOCK_PROCESS_CPUTIME_ID, &begun);
    clock_gettime(CLOCK_MONOTONIC, &begun_at);
  }
  return create(thread, attributes, routine, argument);
}

static long long between(struct timespec from, struct timespec to) {
  return (to.tv_sec - from.tv_sec) * 1000000000LL + (to.tv_nsec - from.tv_nsec);
}

/* The program ends by this call. */
void _exit(int status) {
  struct timespec now, now_at;
  clock_gettime(CLOCK_PROCESS_CPUTIME_ID, &now);
  clock_gettime(CLOCK_MONOTONIC, &now_at);
  const char *name = getenv("SINCE_FILE");
  FILE *out = name ? fopen(name, "w") : NULL;
  if (out) {
    fprintf(out, "%lld %lld %d\n", between(begun, now), between(begun_at, now_at), threads);
    fclose(out);
  }
  syscall(SYS_exit_group, status);
  __builtin_unreachable();
}
