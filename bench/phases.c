// Tells from outside when `dstm run` makes tables, runs its crew and closes tables.
//   gcc -O2 -shared -fPIC phases.c -o phases.so -ldl
//   LD_PRELOAD=./phases.so PHASES=FILE dstm run < WORKLOAD
// Writes to FILE a line "NAME CLOCK PROCESSORS SIZE" for each of these calls: a malloc or free of at least 64 KiB, a thread
// that is made or was joined, a read and a write. CLOCK and PROCESSORS are the microseconds since the start, on the clock
// and on all processors.
#define _GNU_SOURCE
#include <dlfcn.h>
#include <fcntl.h>
#include <pthread.h>
#include <stdatomic.h>
#include <stdio.h>
#include <stdlib.h>
#include <string.h>
#include <time.h>
#include <unistd.h>

enum { LARGE = 65536, MOST = 1 << 16 };

struct event { const char *name; long long at, used; size_t size; };
static struct event events[MOST];
static atomic_int made;
static long long began;

static long long now(clockid_t clock) {
  struct timespec t;
  clock_gettime(clock, &t);
  return t.tv_sec * 1000000LL + t.tv_nsec / 1000;
}

static void tell(const char *name, size_t size) {
  int place = atomic_fetch_add(&made, 1);
  if (place < MOST) {
    events[place] = (struct event){name, now(CLOCK_MONOTONIC) - began, now(CLOCK_PROCESS_CPUTIME_ID), size};
  }
}

#define REAL(name) static __typeof__(&name) real; if (!real) real = (__typeof__(&name))dlsym(RTLD_NEXT, #name)

extern void *__libc_malloc(size_t);
extern void __libc_free(void *);
extern size_t malloc_usable_size(void *);

void *malloc(size_t size) {
  void *block = __libc_malloc(size);
  if (size >= LARGE) tell("malloc", size);
  return block;
}

void free(void *block) {
  size_t size = block ? malloc_usable_size(block) : 0;
  __libc_free(block);
  if (size >= LARGE) tell("free", size);
}

int pthread_create(pthread_t *thread, const pthread_attr_t *how, void *(*run)(void *), void *given) {
  REAL(pthread_create);
  tell("create", 0);
  return real(thread, how, run, given);
}

int pthread_join(pthread_t thread, void **answer) {
  REAL(pthread_join);
  int status = real(thread, answer);
  tell("join", 0);
  return status;
}

ssize_t read(int file, void *to, size_t size) {
  REAL(read);
  ssize_t count = real(file, to, size);
  tell("read", count > 0 ? (size_t)count : 0);
  return count;
}

ssize_t write(int file, const void *from, size_t size) {
  REAL(write);
  ssize_t count = real(file, from, size);
  tell("write", count > 0 ? (size_t)count : 0);
  return count;
}

static void dump(void) {
  const char *path = getenv("PHASES");
  if (!path) return;
  tell("end", 0);
  FILE *file = fopen(path, "w");
  int count = atomic_load(&made);
  for (int i = 0; file && i < count && i < MOST; i++) {
    fprintf(file, "%s %lld %lld %zu\n", events[i].name, events[i].at, events[i].used, events[i].size);
  }
  if (file) fclose(file);
}

__attribute__((constructor)) static void begin(void) { began = now(CLOCK_MONOTONIC); }
__attribute__((destructor)) static void end(void) { dump(); }

void _exit(int status) {
  static void (*real)(int);
  if (!real) real = (void (*)(int))dlsym(RTLD_NEXT, "_exit");
  dump();
  real(status);
  __builtin_unreachable();
}
