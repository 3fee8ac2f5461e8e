// Refuses one of the allocations of a program, counted from 1:
//   gcc -O2 -shared -fPIC memory.c -o memory.so
//   LD_PRELOAD=./memory.so REFUSE=N TOLD=FILE dstm run < WORKLOAD
// FILE is made as the allocation is refused: where it is not there in the end, the program has made fewer.
#include <errno.h>
#include <fcntl.h>
#include <stdatomic.h>
#include <stdlib.h>
#include <unistd.h>

extern void *__libc_malloc(size_t);
extern void *__libc_calloc(size_t, size_t);
extern void *__libc_realloc(void *, size_t);

static atomic_long made;
static long refuse;

__attribute__((constructor)) static void begin(void) {
  const char *number = getenv("REFUSE");
  refuse = number ? atol(number) : 0;
  atomic_store(&made, 0);
}

static int is_refused(void) {
  if (atomic_fetch_add(&made, 1) + 1 != refuse) return 0;
  const char *told = getenv("TOLD");
  if (told) close(open(told, O_CREAT | O_WRONLY, 0600));
  errno = ENOMEM;
  return 1;
}

void *malloc(size_t size) { return is_refused() ? 0 : __libc_malloc(size); }

void *calloc(size_t count, size_t size) { return is_refused() ? 0 : __libc_calloc(count, size); }

void *realloc(void *block, size_t size) { return is_refused() ? 0 : __libc_realloc(block, size); }
