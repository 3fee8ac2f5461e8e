/* dstm.h: a transactional memory for the threads of a program in C or C++. The library behind it is written and
   proved in Rattle.

   A memory has cells of two 64-bit words. Each thread takes a part in the memory, and makes transactions by its part:

       dstm_memory memory = DSTM_ZERO;
       dstm_thread me = DSTM_ZERO;
       dstm_cell counter;
       dstm_code code;
       uint64_t n;

       dstm_memory_new(&memory, 4, DSTM_TL2);             // at most 4 threads at once
       dstm_cell_new(&memory, 0, 0, &counter);
       dstm_thread_new(&memory, &me);                     // for each thread, one at a time
       do {                                               // in the thread
           code = dstm_begin(&me);
           if (!code) code = dstm_get_u64(&me, counter, &n);
           if (!code) code = dstm_set_u64(&me, counter, n + 1);
           if (!code) code = dstm_commit(&me);
       } while (code == DSTM_AGAIN);

   dstm_atomically, further down, is this loop for a function of the program. Behind it stand structures made of cells.

   Every call answers a code. Each ends, whatever other threads do: none waits for another thread, but dstm_wait and
   dstm_atomically, and their like, and these for so many looks or so long only.

   What the program owes, and nothing checks:
   - a handle is all zeros at first (DSTM_ZERO). The program does not change it, and uses no copy of it beside it;
   - of two calls on one handle one ends before the other begins, and dstm_thread_new is a call on both of its
     handles. A handle goes from one thread to another only as the program orders it: by a lock, or by the start or
     end of a thread;
   - a pointer that is not null points to what its type says, and to no other argument of the call;
   - no call comes from a signal handler, or in the forked child of a process with threads;
   - malloc, realloc and free are those of one allocator, and align as C says.
   A cell is a number. One of another memory is DSTM_FOREIGN only where this memory has no such number. */
#ifndef DSTM_H
#define DSTM_H
#include <sched.h>
#include <stdint.h>
#include <time.h>
#if defined(DSTM_BELL_CONDVAR)
#include <pthread.h>
#elif !defined(DSTM_NO_BELL) && defined(__linux__) && defined(__LP64__) && defined(__GNUC__) && defined(__has_include)
#if __has_include(<linux/futex.h>)
#include <linux/futex.h>
#include <sys/syscall.h>
#define DSTM_BELL_FUTEX
#endif
#endif
#ifdef __cplusplus
extern "C" {
#endif

/* The version of this header: 10,000 for each version, 100 for each addition to it, 1 for each mending. */
#define DSTM_VERSION 10200

typedef enum dstm_code {
    DSTM_OK = 0,
    DSTM_AGAIN = 1,   /* the transaction is lost, since another one came between: begin again */
    DSTM_SPENT = 2,   /* by DSTM alone: the part has no attempts left, or no locators: free it and take another */
    DSTM_FOREIGN = 3, /* the memory has no such cell */
    DSTM_IDLE = 4,    /* no transaction is under way */
    DSTM_OPEN = 5,    /* a transaction is under way */
    DSTM_CLOSED = 6,  /* the handle is closed, or not of this kind */
    DSTM_TAKEN = 7,   /* the handle is not closed: what it stands for would be lost */
    DSTM_BUSY = 8,    /* threads have parts in the memory */
    DSTM_FULL = 9,    /* the memory has as many cells, or as many parts, as it can have */
    DSTM_MEMORY = 10, /* there is not enough memory */
    DSTM_RANGE = 11,  /* a number is out of its range */
    DSTM_NULL = 12,   /* a pointer is null */
    DSTM_RETRY = 13,  /* what a body answers where it cannot go on with what it has read */
    DSTM_ELSEWHERE = 14 /* a body said AGAIN, and its own transaction is not lost: it was told so of another one */
} dstm_code;

/* By which engine a memory works: by TL2; or by DSTM, under one of four contention managers. By DSTM nobody locks, so
   that a thread that is stopped in the middle of a call keeps no other one from committing; a part has 65,536
   attempts, and 131,072 cells more than the memory has may be opened by it for writing. By TL2 a part has no end. */
typedef enum dstm_engine {
    DSTM_TL2 = 0,
    DSTM_POLKA = 1,
    DSTM_KARMA = 2,
    DSTM_POLITE = 3,
    DSTM_GREEDY = 4
} dstm_engine;

/* What has become of the attempts that dstm_atomically and its like have made by a part, and by those that its handle had
   before: how many were begun, and have ended in each of these ways. The others are given up, or under way
   (dstm_given_up). The thread that has the part reads them as me.counts. */
typedef struct dstm_counts {
    uint64_t begun;
    uint64_t committed; /* they took effect */
    uint64_t viewed;    /* they were views, and ended well */
    uint64_t lost;      /* a call of their body told that they are lost */
    uint64_t refused;   /* they were lost at their commit */
    uint64_t waited;    /* their body answered DSTM_RETRY */
} dstm_counts;

/* The library has the first two fields of a handle alone. */
typedef struct dstm_memory { void *at; uint64_t state; } dstm_memory;
typedef struct dstm_thread { void *at; uint64_t state; dstm_counts counts; } dstm_thread;
typedef uint32_t dstm_cell;
#ifdef __cplusplus
#define DSTM_ZERO {}
#else
#define DSTM_ZERO {0}
#endif

/* What the library exports: the same calls without the tests for null. */
uint32_t dstmc_version(void);
uint32_t dstmc_memory_new(dstm_memory *memory, uint32_t threads, uint32_t engine);
uint32_t dstmc_memory_free(dstm_memory *memory);
uint32_t dstmc_cell_new(dstm_memory *memory, uint64_t low, uint64_t high, uint32_t *cell);
uint32_t dstmc_peek(dstm_memory *memory, uint32_t cell, uint64_t *low, uint64_t *high);
uint32_t dstmc_thread_new(dstm_memory *memory, dstm_thread *thread);
uint32_t dstmc_thread_free(dstm_thread *thread);
uint32_t dstmc_turn(dstm_thread *thread, uint32_t lost);
uint32_t dstmc_begin(dstm_thread *thread);
uint32_t dstmc_get(dstm_thread *thread, uint32_t cell, uint64_t *low, uint64_t *high);
uint32_t dstmc_set(dstm_thread *thread, uint32_t cell, uint64_t low, uint64_t high);
uint32_t dstmc_commit(dstm_thread *thread);
uint32_t dstmc_abort(dstm_thread *thread);
uint32_t dstmc_look(dstm_thread *thread);
uint32_t dstmc_mark(dstm_thread *thread, uint64_t *mark);
uint32_t dstmc_undo_to(dstm_thread *thread, uint64_t mark);
uint32_t dstmc_queue_new(dstm_memory *memory, uint32_t capacity, uint32_t *first);
uint32_t dstmc_queue_try_push(dstm_thread *thread, uint32_t first, uint32_t capacity, uint64_t low, uint64_t high,
                              uint32_t *pushed);
uint32_t dstmc_queue_try_pop(dstm_thread *thread, uint32_t first, uint32_t capacity, uint32_t *there, uint64_t *low,
                             uint64_t *high);
uint32_t dstmc_queue_front(dstm_thread *thread, uint32_t first, uint32_t capacity, uint32_t *there, uint64_t *low,
                           uint64_t *high);
uint32_t dstmc_queue_len(dstm_thread *thread, uint32_t first, uint32_t capacity, uint32_t *len);
uint32_t dstmc_pool_new(dstm_memory *memory, uint32_t cells, uint32_t *first);
uint32_t dstmc_pool_take(dstm_thread *thread, uint32_t first, uint32_t cells, uint64_t from, uint64_t low, uint64_t high,
                         uint32_t *there, uint32_t *cell);
uint32_t dstmc_pool_give(dstm_thread *thread, uint32_t first, uint32_t cells, uint32_t cell, uint32_t *given);
uint32_t dstmc_map_new(dstm_memory *memory, uint32_t capacity, uint32_t *first);
uint32_t dstmc_map_get(dstm_thread *thread, uint32_t first, uint32_t capacity, uint64_t key, uint32_t *there,
                       uint64_t *low, uint64_t *high);
uint32_t dstmc_map_contains(dstm_thread *thread, uint32_t first, uint32_t capacity, uint64_t key, uint32_t *there);
uint32_t dstmc_map_put(dstm_thread *thread, uint32_t first, uint32_t capacity, uint64_t key, uint64_t low, uint64_t high,
                       uint32_t *placed, uint64_t *had_low, uint64_t *had_high);
uint32_t dstmc_map_remove(dstm_thread *thread, uint32_t first, uint32_t capacity, uint64_t key, uint32_t *there,
                          uint64_t *low, uint64_t *high);
uint32_t dstmc_map_len(dstm_thread *thread, uint32_t first, uint32_t capacity, uint32_t *len);
uint32_t dstmc_ordered_new(dstm_memory *memory, uint32_t capacity, uint32_t *first);
uint32_t dstmc_ordered_get(dstm_thread *thread, uint32_t first, uint32_t capacity, uint64_t key, uint32_t *there,
                           uint64_t *low, uint64_t *high);
uint32_t dstmc_ordered_contains(dstm_thread *thread, uint32_t first, uint32_t capacity, uint64_t key, uint32_t *there);
uint32_t dstmc_ordered_put(dstm_thread *thread, uint32_t first, uint32_t capacity, uint64_t key, uint64_t low,
                           uint64_t high, uint32_t *placed, uint64_t *had_low, uint64_t *had_high);
uint32_t dstmc_ordered_remove(dstm_thread *thread, uint32_t first, uint32_t capacity, uint64_t key, uint32_t *there,
                              uint64_t *low, uint64_t *high);
uint32_t dstmc_ordered_len(dstm_thread *thread, uint32_t first, uint32_t capacity, uint32_t *len);
uint32_t dstmc_ordered_first(dstm_thread *thread, uint32_t first, uint32_t capacity, uint32_t *there, uint64_t *key,
                             uint64_t *low, uint64_t *high);
uint32_t dstmc_ordered_last(dstm_thread *thread, uint32_t first, uint32_t capacity, uint32_t *there, uint64_t *key,
                            uint64_t *low, uint64_t *high);
uint32_t dstmc_ordered_next_above(dstm_thread *thread, uint32_t first, uint32_t capacity, uint64_t bound,
                                  uint32_t *there, uint64_t *key, uint64_t *low, uint64_t *high);
uint32_t dstmc_ordered_next_below(dstm_thread *thread, uint32_t first, uint32_t capacity, uint64_t bound,
                                  uint32_t *there, uint64_t *key, uint64_t *low, uint64_t *high);
uint32_t dstmc_ordered_pop_first(dstm_thread *thread, uint32_t first, uint32_t capacity, uint32_t *there, uint64_t *key,
                                 uint64_t *low, uint64_t *high);
uint32_t dstmc_ordered_pop_last(dstm_thread *thread, uint32_t first, uint32_t capacity, uint32_t *there, uint64_t *key,
                                uint64_t *low, uint64_t *high);
uint32_t dstmc_set_new(dstm_memory *memory, uint32_t capacity, uint32_t *first);
uint32_t dstmc_set_insert(dstm_thread *thread, uint32_t first, uint32_t capacity, uint64_t key, uint32_t *inserted);
uint32_t dstmc_set_remove(dstm_thread *thread, uint32_t first, uint32_t capacity, uint64_t key, uint32_t *there);
uint32_t dstmc_set_contains(dstm_thread *thread, uint32_t first, uint32_t capacity, uint64_t key, uint32_t *there);
uint32_t dstmc_set_len(dstm_thread *thread, uint32_t first, uint32_t capacity, uint32_t *len);
uint32_t dstmc_set_first(dstm_thread *thread, uint32_t first, uint32_t capacity, uint32_t *there, uint64_t *key);
uint32_t dstmc_set_last(dstm_thread *thread, uint32_t first, uint32_t capacity, uint32_t *there, uint64_t *key);
uint32_t dstmc_set_next_above(dstm_thread *thread, uint32_t first, uint32_t capacity, uint64_t bound, uint32_t *there,
                              uint64_t *key);
uint32_t dstmc_set_next_below(dstm_thread *thread, uint32_t first, uint32_t capacity, uint64_t bound, uint32_t *there,
                              uint64_t *key);
uint32_t dstmc_set_pop_first(dstm_thread *thread, uint32_t first, uint32_t capacity, uint32_t *there, uint64_t *key);
uint32_t dstmc_set_pop_last(dstm_thread *thread, uint32_t first, uint32_t capacity, uint32_t *there, uint64_t *key);

#define DSTM_CALL(test, call) ((test) ? (dstm_code)(call) : DSTM_NULL)

/* The version of the library. It fits this header where both are of one version, as 10,000 divides them. */
static inline uint32_t dstm_version(void) { return dstmc_version(); }

/* What a code means. */
static inline const char *dstm_code_text(dstm_code code) {
    switch (code) {
    case DSTM_OK: return "done";
    case DSTM_AGAIN: return "the transaction is lost";
    case DSTM_SPENT: return "the part has no attempts left";
    case DSTM_FOREIGN: return "the memory has no such cell";
    case DSTM_IDLE: return "no transaction is under way";
    case DSTM_OPEN: return "a transaction is under way";
    case DSTM_CLOSED: return "the handle is closed, or of another kind";
    case DSTM_TAKEN: return "the handle is not closed";
    case DSTM_BUSY: return "threads have parts in the memory";
    case DSTM_FULL: return "the memory has no room for it";
    case DSTM_MEMORY: return "out of memory";
    case DSTM_RANGE: return "a number is out of its range";
    case DSTM_NULL: return "a pointer is null";
    case DSTM_RETRY: return "nothing that was read has changed";
    case DSTM_ELSEWHERE: return "another transaction is lost";
    }
    return "no code";
}

/* MEMORIES. One thread at a time uses a memory; others may make transactions by their parts meanwhile. */

/* A memory with no cell, in which so many threads, from 1 to 63, may have parts at once. RANGE, TAKEN, MEMORY. */
static inline dstm_code dstm_memory_new(dstm_memory *memory, uint32_t threads, dstm_engine engine) {
    return DSTM_CALL(memory, dstmc_memory_new(memory, threads, (uint32_t)engine));
}
/* Parts that threads still have stay good. CLOSED. */
static inline dstm_code dstm_memory_free(dstm_memory *memory) {
    return DSTM_CALL(memory, dstmc_memory_free(memory));
}
/* A new cell; at most 524,288, while no thread has a part: later ones come out of a pool (dstm_pool_new). They are
   numbered from 0 on, in the order in which they are made. BUSY, FULL, MEMORY, SPENT, CLOSED. */
static inline dstm_code dstm_cell_new(dstm_memory *memory, uint64_t low, uint64_t high, dstm_cell *cell) {
    return DSTM_CALL(memory && cell, dstmc_cell_new(memory, low, high, cell));
}
static inline dstm_code dstm_cell_new_u64(dstm_memory *memory, uint64_t low, dstm_cell *cell) {
    return DSTM_CALL(memory && cell, dstmc_cell_new(memory, low, 0, cell));
}
/* What a cell holds, while no thread has a part. BUSY, FOREIGN, MEMORY, SPENT, CLOSED. */
static inline dstm_code dstm_peek(dstm_memory *memory, dstm_cell cell, uint64_t *low, uint64_t *high) {
    return DSTM_CALL(memory && low && high && low != high, dstmc_peek(memory, cell, low, high));
}
static inline dstm_code dstm_peek_u64(dstm_memory *memory, dstm_cell cell, uint64_t *low) {
    uint64_t high;
    return DSTM_CALL(memory && low, dstmc_peek(memory, cell, low, &high));
}
/* A part for a thread. It is a call on the memory, too: threads that take parts by themselves do it under a lock of the
   program's. FULL: so many threads have parts; or, while one was always out, parts have come and gone: in a row as many
   as threads are given out, and by TL2 up to 63. FULL, TAKEN, MEMORY, SPENT, CLOSED. */
static inline dstm_code dstm_thread_new(dstm_memory *memory, dstm_thread *thread) {
    return DSTM_CALL(memory && thread && (void *)memory != (void *)thread, dstmc_thread_new(memory, thread));
}
/* Gives a part back; a transaction under way is given up. It wants no lock. CLOSED. */
static inline dstm_code dstm_thread_free(dstm_thread *thread) { return DSTM_CALL(thread, dstmc_thread_free(thread)); }

/* THE BELL, by which a commit wakes the threads that wait. There is one for all memories of a program. Its word counts
   the rings by two, and is odd where somebody sleeps. Where nobody does, a commit loads the word (7 instructions, 3 ns at
   most) and no more; else one rings for all, and each sleeper looks, and sleeps on where nothing that it has read has
   changed. Who commits by dstmc_commit, or in a shared library with a bell of its own, wakes nobody: a sleeper looks by
   itself, too, after 1 ms at first, and later once it has waited as long again, or for 100 ms.
   It is a futex, or with -DDSTM_BELL_CONDVAR a lock and a condition variable. With -DDSTM_NO_BELL, or where there is no
   futex, there is none, and who waits looks after 50 us at first, and at last each 1 ms. */
#if defined(__ELF__) && defined(__LP64__)
/* two calls of POSIX, by names of their own, since -std=c99 hides them */
int dstm_clock(int clock, struct timespec *now) __asm__("clock_gettime");
int dstm_nap(const struct timespec *time, struct timespec *left) __asm__("nanosleep");
#else
#define dstm_clock clock_gettime
#define dstm_nap nanosleep
#endif
#ifdef CLOCK_MONOTONIC
#define DSTM_CLOCK CLOCK_MONOTONIC
#else
#define DSTM_CLOCK 1
#endif
static inline uint64_t dstm_now(int clock) {
    struct timespec now = {0, 0};
    dstm_clock(clock, &now);
    return (uint64_t)now.tv_sec * 1000000000 + (uint64_t)now.tv_nsec;
}
static inline struct timespec dstm_time(uint64_t nanoseconds) {
    struct timespec time = {0, 0};
    time.tv_sec = (time_t)(nanoseconds / 1000000000);
    time.tv_nsec = (long)(nanoseconds % 1000000000);
    return time;
}
static inline void dstm_sleep(uint64_t nanoseconds) {
    struct timespec time = dstm_time(nanoseconds);
    dstm_nap(&time, &time);
}
#if defined(DSTM_BELL_FUTEX)
typedef struct dstm_bell_by_futex { uint32_t word; } __attribute__((aligned(64))) dstm_bell_by_futex;
extern dstm_bell_by_futex dstm_bell_futex __attribute__((weak, visibility("default")));
dstm_bell_by_futex dstm_bell_futex = {0};
#define DSTM_BELL dstm_bell_futex
long dstm_system(long number, ...) __asm__("syscall");
static inline void dstm_bell_wake(uint32_t word) {
    if (__atomic_compare_exchange_n(&DSTM_BELL.word, &word, word + 1, 0, __ATOMIC_SEQ_CST, __ATOMIC_SEQ_CST))
        dstm_system(SYS_futex, &DSTM_BELL.word, FUTEX_WAKE_PRIVATE, 0x7fffffff, 0, 0, 0);
}
static inline void dstm_bell_sleep(uint32_t word, uint64_t nanoseconds) {
    struct timespec time = dstm_time(nanoseconds);
    dstm_system(SYS_futex, &DSTM_BELL.word, FUTEX_WAIT_PRIVATE, word, &time, 0, 0);
}
#elif defined(DSTM_BELL_CONDVAR)
typedef struct dstm_bell_by_condvar {
    uint32_t word;
    pthread_mutex_t lock;
    pthread_cond_t rung;
} __attribute__((aligned(64))) dstm_bell_by_condvar;
extern dstm_bell_by_condvar dstm_bell_condvar __attribute__((weak, visibility("default")));
dstm_bell_by_condvar dstm_bell_condvar = {0, PTHREAD_MUTEX_INITIALIZER, PTHREAD_COND_INITIALIZER};
#define DSTM_BELL dstm_bell_condvar
static inline void dstm_bell_wake(uint32_t word) {
    pthread_mutex_lock(&DSTM_BELL.lock);
    __atomic_compare_exchange_n(&DSTM_BELL.word, &word, word + 1, 0, __ATOMIC_SEQ_CST, __ATOMIC_SEQ_CST);
    pthread_mutex_unlock(&DSTM_BELL.lock);
    pthread_cond_broadcast(&DSTM_BELL.rung);
}
static inline void dstm_bell_sleep(uint32_t word, uint64_t nanoseconds) {
    struct timespec until = dstm_time(dstm_now(0) + nanoseconds); /* its clock is CLOCK_REALTIME */
    pthread_mutex_lock(&DSTM_BELL.lock);
    if (__atomic_load_n(&DSTM_BELL.word, __ATOMIC_SEQ_CST) == word)
        pthread_cond_timedwait(&DSTM_BELL.rung, &DSTM_BELL.lock, &until);
    pthread_mutex_unlock(&DSTM_BELL.lock);
}
#endif
#ifdef DSTM_BELL
#define DSTM_LEAST_SLEEP 1000000
#define DSTM_MOST_SLEEP 100000000
/* Wakes who sleeps. dstm_commit does so by itself. */
static inline void dstm_ring(void) {
    uint32_t word = __atomic_load_n(&DSTM_BELL.word, __ATOMIC_SEQ_CST);
    if (__builtin_expect(word & 1, 0)) dstm_bell_wake(word);
}
/* From here on each commit rings: who announces looks once more before it sleeps, so that no change is missed. */
static inline uint32_t dstm_bell_announce(void) { return __atomic_or_fetch(&DSTM_BELL.word, 1, __ATOMIC_SEQ_CST); }
#else
#define DSTM_LEAST_SLEEP 50000
#define DSTM_MOST_SLEEP 1000000
static inline void dstm_ring(void) {}
static inline uint32_t dstm_bell_announce(void) { return 0; }
static inline void dstm_bell_sleep(uint32_t word, uint64_t nanoseconds) {
    (void)word;
    dstm_sleep(nanoseconds);
}
#endif
static inline void dstm_pause(uint32_t times) {
    for (; times; times--) {
#if defined(__GNUC__) && (defined(__x86_64__) || defined(__i386__))
        __builtin_ia32_pause();
#elif defined(__GNUC__)
        __asm__ __volatile__("" ::: "memory");
#endif
    }
}

/* TRANSACTIONS. What is read is of one moment, also in an attempt that comes to nothing. */

/* Before an attempt at a transaction that was lost so often. One that was lost 8 times takes the memory's turn, until it
   has taken effect, is given up, or looks; a long one gets through so beside short ones. AGAIN: another thread has the
   turn; leave the processor to others, and ask again: at most 524,288 times in a row, and once for one that keeps the turn
   for long. dstm_atomically does so before each attempt; a loop of one's own that does not neither waits for the turn of
   others nor gets its own. CLOSED. */
static inline dstm_code dstm_turn(dstm_thread *me, uint32_t lost) { return DSTM_CALL(me, dstmc_turn(me, lost)); }
/* Begins a transaction, or the next attempt at one that was lost. OPEN, SPENT, CLOSED. */
static inline dstm_code dstm_begin(dstm_thread *me) { return DSTM_CALL(me, dstmc_begin(me)); }
/* What a cell holds. AGAIN, FOREIGN, IDLE, CLOSED: then nothing is written to low and high. */
static inline dstm_code dstm_get(dstm_thread *me, dstm_cell cell, uint64_t *low, uint64_t *high) {
    return DSTM_CALL(me && low && high && low != high, dstmc_get(me, cell, low, high));
}
static inline dstm_code dstm_get_u64(dstm_thread *me, dstm_cell cell, uint64_t *low) {
    uint64_t high;
    return DSTM_CALL(me && low, dstmc_get(me, cell, low, &high));
}
/* Puts a value into a cell. AGAIN, FOREIGN, IDLE, MEMORY, CLOSED. */
static inline dstm_code dstm_set(dstm_thread *me, dstm_cell cell, uint64_t low, uint64_t high) {
    return DSTM_CALL(me, dstmc_set(me, cell, low, high));
}
static inline dstm_code dstm_set_u64(dstm_thread *me, dstm_cell cell, uint64_t low) {
    return DSTM_CALL(me, dstmc_set(me, cell, low, 0));
}
/* OK: the transaction took effect as a whole, and the bell is rung. Any other code: nothing of it did. AGAIN, IDLE,
   CLOSED. */
static inline dstm_code dstm_commit(dstm_thread *me) {
    dstm_code code = DSTM_CALL(me, dstmc_commit(me));
    if (!code) dstm_ring();
    return code;
}
/* Gives the transaction up: nothing of it takes effect. What it has read is of one moment all the same, and no number
   is drawn, so that nobody who waits is woken: so a transaction that only reads may end by it. IDLE, CLOSED. */
static inline dstm_code dstm_abort(dstm_thread *me) { return DSTM_CALL(me, dstmc_abort(me)); }

/* WAITING, where a transaction cannot go on with what it has read. */

/* One look. OK: nothing that the transaction has read has changed. AGAIN: something may have (by TL2, where any number
   was drawn since it began, as by a commit that has set nothing, too, or that fails behind its draw), or it was lost.
   After a look it can only look, begin again or be given up. By DSTM the first look lets go of what it has set, which
   wants memory. MEMORY, SPENT, IDLE, CLOSED. */
static inline dstm_code dstm_look(dstm_thread *me) { return DSTM_CALL(me, dstmc_look(me)); }
/* So many looks, and before each of them the processor is left to others. AGAIN: begin again. RETRY: nothing has
   changed for all of them; the transaction is given up. MEMORY, SPENT, IDLE, CLOSED. */
static inline dstm_code dstm_wait(dstm_thread *me, uint32_t looks) {
    for (; looks; looks--) {
        dstm_code code;
        sched_yield();
        code = dstm_look(me);
        if (code) return code;
    }
    {
        dstm_code code = dstm_abort(me);
        return code ? code : DSTM_RETRY;
    }
}
/* Looks for 2 us, and then sleeps between looks (THE BELL). AGAIN: begin again. RETRY: nothing has changed for so many
   nanoseconds; the transaction is given up. With 0 it looks once. MEMORY, SPENT, IDLE, CLOSED. */
static inline dstm_code dstm_wait_for(dstm_thread *me, uint64_t nanoseconds) {
    uint64_t begun = dstm_now(DSTM_CLOCK), waited, time;
    dstm_code code;
    for (waited = 0;; waited = dstm_now(DSTM_CLOCK) - begun) {
        int sleeps = waited >= 2000;
        uint32_t word = sleeps ? dstm_bell_announce() : 0;
        code = dstm_look(me);
        if (code) return code;
        if (waited >= nanoseconds) break;
        time = waited < DSTM_LEAST_SLEEP ? DSTM_LEAST_SLEEP : waited < DSTM_MOST_SLEEP ? waited : DSTM_MOST_SLEEP;
        if (!sleeps) dstm_pause(1);
        else dstm_bell_sleep(word, time < nanoseconds - waited ? time : nanoseconds - waited);
    }
    code = dstm_abort(me);
    return code ? code : DSTM_RETRY;
}

/* How many attempts were given up: they have ended by another code, or were left by an exception or by longjmp. One that
   is under way is told with them. */
static inline uint64_t dstm_given_up(const dstm_thread *me) {
    const dstm_counts *of = &me->counts;
    return of->begun - of->committed - of->viewed - of->lost - of->refused - of->waited;
}

/* ALTERNATIVES. */

/* Marks what the transaction has set. Where it is lost already, this and dstm_undo_to may still answer OK: what counts
   is what the commit answers. AGAIN, IDLE, CLOSED. */
static inline dstm_code dstm_mark(dstm_thread *me, uint64_t *mark) {
    return DSTM_CALL(me && mark, dstmc_mark(me, mark));
}
/* Undoes what was set since a mark of this transaction. What was read stays read. RANGE, AGAIN, IDLE, CLOSED. */
static inline dstm_code dstm_undo_to(dstm_thread *me, uint64_t mark) { return DSTM_CALL(me, dstmc_undo_to(me, mark)); }

/* What the loop below calls: a part of a transaction. It passes on each code that is not DSTM_OK, and ends by a return:
   where longjmp or an exception leaves it, the transaction stays under way until dstm_abort. */
typedef dstm_code (*dstm_body)(dstm_thread *me, void *with);

/* Goes on by the first body, or by the second one where the first answers DSTM_RETRY: what that has set is undone. */
static inline dstm_code dstm_or_else(dstm_thread *me, dstm_body first, dstm_body second, void *with) {
    uint64_t mark = 0;
    dstm_code code = dstm_mark(me, &mark);
    if (!code) code = first(me, with);
    if (code != DSTM_RETRY) return code;
    code = dstm_undo_to(me, mark);
    return code ? code : second(me, with);
}

/* Gives way, the so-manieth time in a row: pauses twice, and then naps for 50 us, 100, .. 800 us, 1 ms. A yield would
   give a whole slice of time away where other programs keep the processor busy. */
static inline void dstm_give_way(uint32_t times) {
    if (times <= 2) dstm_pause(32u << times);
    else dstm_sleep(times < 8 ? 6250u << times : 1000000);
}
/* How the loop below waits, the so-manieth time, and with what patience: for so many looks; for so long each time; or
   in all. Who was often woken in vain naps first, so that steady commits to other cells do not wake it each time. */
typedef dstm_code (*dstm_waiting)(dstm_thread *me, uint64_t *patience, uint32_t times);
static inline dstm_code dstm_wait_looks(dstm_thread *me, uint64_t *looks, uint32_t times) {
    (void)times;
    return dstm_wait(me, (uint32_t)*looks);
}
static inline dstm_code dstm_wait_each(dstm_thread *me, uint64_t *nanoseconds, uint32_t times) {
    if (times > 8) dstm_give_way(2 + times / 8);
    return dstm_wait_for(me, *nanoseconds);
}
static inline dstm_code dstm_wait_in_all(dstm_thread *me, uint64_t *left, uint32_t times) {
    uint64_t begun = dstm_now(DSTM_CLOCK), waited;
    dstm_code code = dstm_wait_each(me, left, times);
    waited = dstm_now(DSTM_CLOCK) - begun;
    *left -= waited < *left ? waited : *left;
    return code;
}
/* dstm_begin, where no other thread has the turn, or this one has waited for it long enough: 3 ms or so at first, and
   half a second at most. */
static inline dstm_code dstm_begin_in_turn(dstm_thread *me, uint32_t lost) {
    uint32_t asked = 0;
    while (dstm_turn(me, lost) == DSTM_AGAIN)
        if (++asked % 1024 == 0) dstm_give_way(asked / 1024);
    return dstm_begin(me);
}
/* How an attempt of the loop below ends whose body has answered OK. */
typedef dstm_code (*dstm_ending)(dstm_thread *me);
static inline dstm_code dstm_end_by_commit(dstm_thread *me) {
    dstm_code code = dstm_commit(me);
    if (!code) me->counts.committed++;
    if (code == DSTM_AGAIN) me->counts.refused++;
    return code;
}
static inline dstm_code dstm_end_view(dstm_thread *me) {
    dstm_code code = dstm_abort(me);
    if (!code) me->counts.viewed++;
    return code;
}
/* The loop of all that follows: calls a body on attempts, one after the other, until one has ended well. */
static inline dstm_code dstm_make(dstm_thread *me, dstm_ending end, dstm_waiting wait, uint64_t patience,
                                  dstm_body body, void *with) {
    uint32_t lost = 0, waits = 0;
    dstm_code code = dstm_begin_in_turn(me, lost);
    while (!code) {
        int waited;
        me->counts.begun++;
        code = body(me, with);
        if (!code) {
            code = end(me);
            if (!code) return code;
        } else if (code == DSTM_AGAIN) {
            me->counts.lost++;
        }
        waited = code == DSTM_RETRY;
        if (waited) {
            me->counts.waited++;
            code = wait(me, &patience, ++waits);
        }
        if (code != DSTM_AGAIN) {
            dstm_abort(me);
            return code;
        }
        if (waited) lost = 0; /* something has changed, and nobody is in its way */
        else if (lost < 8) dstm_give_way(++lost);
        code = dstm_begin_in_turn(me, lost);
        if (code == DSTM_OPEN) { /* it is not lost */
            me->counts.lost--;
            dstm_abort(me);
            return DSTM_ELSEWHERE;
        }
    }
    return code;
}
/* So many nanoseconds a transaction waits until something changes. */
#define DSTM_PATIENCE (10 * (uint64_t)1000000000)
/* Makes a transaction of a body: calls it until it has taken effect. Where the body answers DSTM_RETRY, it is called
   again once something that it has read may have changed; where nothing does for ten seconds, that is the answer. Any
   other code of the body gives the transaction up, and is the answer; but for AGAIN where this transaction is not lost:
   ELSEWHERE. After each attempt that was lost the thread gives way, for longer each time, 1 ms at most; after 8 of them
   it goes first (dstm_turn). */
static inline dstm_code dstm_atomically(dstm_thread *me, dstm_body body, void *with) {
    return dstm_make(me, dstm_end_by_commit, dstm_wait_each, DSTM_PATIENCE, body, with);
}
/* The same, and it waits for so many nanoseconds in all. With 0 it does not wait. */
static inline dstm_code dstm_atomically_within(dstm_thread *me, uint64_t nanoseconds, dstm_body body, void *with) {
    return dstm_make(me, dstm_end_by_commit, dstm_wait_in_all, nanoseconds, body, with);
}
/* The same by dstm_wait: it waits for so many looks each time, and does not sleep. */
static inline dstm_code dstm_atomically_for(dstm_thread *me, uint32_t looks, dstm_body body, void *with) {
    return dstm_make(me, dstm_end_by_commit, dstm_wait_looks, looks, body, with);
}
/* Looks at the memory by a body, as dstm_atomically calls it: what the last call was told is of one moment. Nothing that
   it has set takes effect, no number is drawn, and nobody is woken, so that views of several threads do not meet. */
static inline dstm_code dstm_view(dstm_thread *me, dstm_body body, void *with) {
    return dstm_make(me, dstm_end_view, dstm_wait_each, DSTM_PATIENCE, body, with);
}

/* STRUCTURES, made of cells. A program names one by the number of its first cell and by how much it has room for, as
   the call that made it has told it: copies of that name name the same one, and threads share it as they share a number.

   A call on one is a part of the transaction under way, as dstm_get and dstm_set are. Besides what it says it answers
   AGAIN, IDLE and CLOSED as these do; RANGE, for a name that no memory has room for; FOREIGN, where it comes upon a cell
   that this memory has not; and MEMORY, behind a dstm_mark alone, where it sets something: a part of it may be set then.
   Where it answers a code that is not OK nothing is written to what its pointers lead to.

   The program sets none of their cells by itself, and takes no name but one that was told: nothing checks that, and what
   a structure holds is lost else. A call that makes one is as dstm_cell_new is: no thread has a part then. It makes all
   of its cells, or none. RANGE, where it is to have room for none, or for more than a memory has room for; BUSY, FULL,
   MEMORY, SPENT, CLOSED. */

/* A queue of pairs of words: the first one in is the first one out. A call on it reads the cell that says where its ends
   are, and sets it where it puts one in or takes one out: so two such transactions stand in one another's way. */
typedef struct dstm_queue { dstm_cell first; uint32_t capacity; } dstm_queue;

/* A new queue, which has room for so many, in as many cells and one more. */
static inline dstm_code dstm_queue_new(dstm_memory *memory, uint32_t capacity, dstm_queue *queue) {
    dstm_queue made = {0, capacity};
    dstm_code code = DSTM_CALL(memory && queue, dstmc_queue_new(memory, capacity, &made.first));
    if (!code) *queue = made;
    return code;
}
/* How many it has. */
static inline dstm_code dstm_queue_len(dstm_thread *me, dstm_queue queue, uint64_t *length) {
    uint32_t count = 0;
    dstm_code code = DSTM_CALL(me && length, dstmc_queue_len(me, queue.first, queue.capacity, &count));
    if (!code) *length = count;
    return code;
}
/* Puts one at the end, where there is room: pushed is 1 then. It is 0 where it is full: nothing is set then. */
static inline dstm_code dstm_queue_try_push(dstm_thread *me, dstm_queue queue, uint64_t low, uint64_t high,
                                            uint32_t *pushed) {
    return DSTM_CALL(me && pushed, dstmc_queue_try_push(me, queue.first, queue.capacity, low, high, pushed));
}
/* Puts one at the end. RETRY, where it is full: nothing is set then. */
static inline dstm_code dstm_queue_push(dstm_thread *me, dstm_queue queue, uint64_t low, uint64_t high) {
    uint32_t pushed = 0;
    dstm_code code = dstm_queue_try_push(me, queue, low, high, &pushed);
    return code || pushed ? code : DSTM_RETRY;
}
static inline dstm_code dstm_queue_push_u64(dstm_thread *me, dstm_queue queue, uint64_t low) {
    return dstm_queue_push(me, queue, low, 0);
}
/* Tells the first one. RETRY, where it is empty. */
static inline dstm_code dstm_queue_front(dstm_thread *me, dstm_queue queue, uint64_t *low, uint64_t *high) {
    uint32_t there = 0;
    dstm_code code = DSTM_CALL(me && low && high && low != high,
                               dstmc_queue_front(me, queue.first, queue.capacity, &there, low, high));
    return code || there ? code : DSTM_RETRY;
}
/* Takes the first one, if there is one: there is 1 then. It is 0 where it is empty: nothing is set then. */
static inline dstm_code dstm_queue_try_pop(dstm_thread *me, dstm_queue queue, uint32_t *there, uint64_t *low,
                                           uint64_t *high) {
    return DSTM_CALL(me && there && low && high && low != high,
                     dstmc_queue_try_pop(me, queue.first, queue.capacity, there, low, high));
}
/* Takes the first one. RETRY, where it is empty: nothing is set then. */
static inline dstm_code dstm_queue_pop(dstm_thread *me, dstm_queue queue, uint64_t *low, uint64_t *high) {
    uint32_t there = 0;
    dstm_code code = dstm_queue_try_pop(me, queue, &there, low, high);
    return code || there ? code : DSTM_RETRY;
}
static inline dstm_code dstm_queue_pop_u64(dstm_thread *me, dstm_queue queue, uint64_t *low) {
    uint64_t high = 0;
    return dstm_queue_pop(me, queue, low, &high);
}

/* A pool of cells, out of which transactions take new cells while threads have parts, and give them back. Beside each
   cell stands a mark, which tells whether it is taken. */
typedef struct dstm_pool { dstm_cell first; uint32_t cells; } dstm_pool;

/* A new pool of so many cells, none of which is taken, in twice as many new cells. */
static inline dstm_code dstm_pool_new(dstm_memory *memory, uint32_t cells, dstm_pool *pool) {
    dstm_pool made = {0, cells};
    dstm_code code = DSTM_CALL(memory && pool, dstmc_pool_new(memory, cells, &made.first));
    if (!code) *pool = made;
    return code;
}
/* Takes a cell, which holds this: the first one that is not taken, from place from % cells on, in a circle. It is taken
   where the transaction takes effect. It reads the mark of each one that it passes, so that threads that begin at places
   far from one another seldom meet. RETRY, where all are taken: nothing is set then. */
static inline dstm_code dstm_pool_take_from(dstm_thread *me, dstm_pool pool, uint64_t from, uint64_t low, uint64_t high,
                                            dstm_cell *cell) {
    uint32_t there = 0;
    dstm_code code = DSTM_CALL(me && cell, dstmc_pool_take(me, pool.first, pool.cells, from, low, high, &there, cell));
    return code || there ? code : DSTM_RETRY;
}
/* The same from a place on that is computed from the part and from what the cell is to hold. */
static inline dstm_code dstm_pool_take(dstm_thread *me, dstm_pool pool, uint64_t low, uint64_t high, dstm_cell *cell) {
    uint64_t mixed = ((uint64_t)(uintptr_t)me + 31 * low + high) * 11400714819323198485u;
    return dstm_pool_take_from(me, pool, mixed >> 32, low, high, cell);
}
/* Gives a cell back. FOREIGN, where it is none of the pool's, or was not taken: nothing is set then. */
static inline dstm_code dstm_pool_give(dstm_thread *me, dstm_pool pool, dstm_cell cell) {
    uint32_t given = 0;
    dstm_code code = DSTM_CALL(me, dstmc_pool_give(me, pool.first, pool.cells, cell, &given));
    return code || given ? code : DSTM_FOREIGN;
}

/* How a key was put into a map. Where there is no room the answer is DSTM_OK all the same, so that dstm_atomically does
   not give the transaction up: the body says what follows. */
typedef enum dstm_placed {
    DSTM_NEW = 0,     /* it was not there */
    DSTM_INSTEAD = 1, /* it was there, and has another value now */
    DSTM_NO_ROOM = 2  /* it was not there, and there is no room for another one: nothing is set */
} dstm_placed;

/* A hash map from numbers to pairs of words. A call on it reads the places at which its key is looked for, one or two on
   the average while at most half of them are taken, and more as the map fills up; and the key's value: so transactions on
   different keys seldom stand in one another's way. Give it room for twice the keys that it is to hold. */
typedef struct dstm_map { dstm_cell first; uint32_t capacity; } dstm_map;

/* A new map, which has room for so many keys, in twice as many cells. */
static inline dstm_code dstm_map_new(dstm_memory *memory, uint32_t capacity, dstm_map *map) {
    dstm_map made = {0, capacity};
    dstm_code code = DSTM_CALL(memory && map, dstmc_map_new(memory, capacity, &made.first));
    if (!code) *map = made;
    return code;
}
/* How many keys it has. It looks at each place, so that each transaction that adds a key or takes one out stands in its
   way. */
static inline dstm_code dstm_map_len(dstm_thread *me, dstm_map map, uint64_t *length) {
    uint32_t count = 0;
    dstm_code code = DSTM_CALL(me && length, dstmc_map_len(me, map.first, map.capacity, &count));
    if (!code) *length = count;
    return code;
}
/* Tells the value of a key, if the key is there: there is 1 then. Else it is 0, and low and high are as they were. */
static inline dstm_code dstm_map_get(dstm_thread *me, dstm_map map, uint64_t key, uint32_t *there, uint64_t *low,
                                     uint64_t *high) {
    return DSTM_CALL(me && there && low && high && low != high,
                     dstmc_map_get(me, map.first, map.capacity, key, there, low, high));
}
static inline dstm_code dstm_map_get_u64(dstm_thread *me, dstm_map map, uint64_t key, uint32_t *there, uint64_t *low) {
    uint64_t high = 0;
    return dstm_map_get(me, map, key, there, low, &high);
}
/* Tells whether a key is there. */
static inline dstm_code dstm_map_contains(dstm_thread *me, dstm_map map, uint64_t key, uint32_t *there) {
    return DSTM_CALL(me && there, dstmc_map_contains(me, map.first, map.capacity, key, there));
}
/* Gives a key this value, and adds the key where it is not there. It tells how (dstm_placed), and what the key had, which
   is as it was where placed is not DSTM_INSTEAD. DSTM_NO_ROOM is told only where so many keys are there as it was made
   for. */
static inline dstm_code dstm_map_put(dstm_thread *me, dstm_map map, uint64_t key, uint64_t low, uint64_t high,
                                     uint32_t *placed, uint64_t *had_low, uint64_t *had_high) {
    return DSTM_CALL(me && placed && had_low && had_high && had_low != had_high,
                     dstmc_map_put(me, map.first, map.capacity, key, low, high, placed, had_low, had_high));
}
static inline dstm_code dstm_map_put_u64(dstm_thread *me, dstm_map map, uint64_t key, uint64_t low, uint32_t *placed) {
    uint64_t had_low = 0, had_high = 0;
    return dstm_map_put(me, map, key, low, 0, placed, &had_low, &had_high);
}
/* Takes a key out, and tells what it had, if it was there: as dstm_map_get does. */
static inline dstm_code dstm_map_remove(dstm_thread *me, dstm_map map, uint64_t key, uint32_t *there, uint64_t *low,
                                        uint64_t *high) {
    return DSTM_CALL(me && there && low && high && low != high,
                     dstmc_map_remove(me, map.first, map.capacity, key, there, low, high));
}
static inline dstm_code dstm_map_remove_u64(dstm_thread *me, dstm_map map, uint64_t key, uint32_t *there, uint64_t *low) {
    uint64_t high = 0;
    return dstm_map_remove(me, map, key, there, low, &high);
}

/* A map that also tells its keys by their order. A key is looked up as in a dstm_map. The order is a tree over the keys'
   bits beside it, in which at most 64 forks stand on a way, no more than the keys have bits, and for keys that come by
   chance about as many as their count has: a call that asks for a key by its order, that adds one or that takes one out
   reads those on its way, and one that adds or takes out sets one of them. Two such transactions stand in one another's
   way where one sets a fork on the way of the other. */
typedef struct dstm_ordered { dstm_cell first; uint32_t capacity; } dstm_ordered;

/* A key with its value. */
typedef struct dstm_entry { uint64_t key, low, high; } dstm_entry;

/* A new one, which has room for so many keys, in three times as many cells and one more. */
static inline dstm_code dstm_ordered_new(dstm_memory *memory, uint32_t capacity, dstm_ordered *map) {
    dstm_ordered made = {0, capacity};
    dstm_code code = DSTM_CALL(memory && map, dstmc_ordered_new(memory, capacity, &made.first));
    if (!code) *map = made;
    return code;
}
/* These do what those of a dstm_map do. */
static inline dstm_code dstm_ordered_len(dstm_thread *me, dstm_ordered map, uint64_t *length) {
    uint32_t count = 0;
    dstm_code code = DSTM_CALL(me && length, dstmc_ordered_len(me, map.first, map.capacity, &count));
    if (!code) *length = count;
    return code;
}
static inline dstm_code dstm_ordered_get(dstm_thread *me, dstm_ordered map, uint64_t key, uint32_t *there, uint64_t *low,
                                         uint64_t *high) {
    return DSTM_CALL(me && there && low && high && low != high,
                     dstmc_ordered_get(me, map.first, map.capacity, key, there, low, high));
}
static inline dstm_code dstm_ordered_get_u64(dstm_thread *me, dstm_ordered map, uint64_t key, uint32_t *there,
                                             uint64_t *low) {
    uint64_t high = 0;
    return dstm_ordered_get(me, map, key, there, low, &high);
}
static inline dstm_code dstm_ordered_contains(dstm_thread *me, dstm_ordered map, uint64_t key, uint32_t *there) {
    return DSTM_CALL(me && there, dstmc_ordered_contains(me, map.first, map.capacity, key, there));
}
static inline dstm_code dstm_ordered_put(dstm_thread *me, dstm_ordered map, uint64_t key, uint64_t low, uint64_t high,
                                         uint32_t *placed, uint64_t *had_low, uint64_t *had_high) {
    return DSTM_CALL(me && placed && had_low && had_high && had_low != had_high,
                     dstmc_ordered_put(me, map.first, map.capacity, key, low, high, placed, had_low, had_high));
}
static inline dstm_code dstm_ordered_put_u64(dstm_thread *me, dstm_ordered map, uint64_t key, uint64_t low,
                                             uint32_t *placed) {
    uint64_t had_low = 0, had_high = 0;
    return dstm_ordered_put(me, map, key, low, 0, placed, &had_low, &had_high);
}
static inline dstm_code dstm_ordered_remove(dstm_thread *me, dstm_ordered map, uint64_t key, uint32_t *there,
                                            uint64_t *low, uint64_t *high) {
    return DSTM_CALL(me && there && low && high && low != high,
                     dstmc_ordered_remove(me, map.first, map.capacity, key, there, low, high));
}
static inline dstm_code dstm_ordered_remove_u64(dstm_thread *me, dstm_ordered map, uint64_t key, uint32_t *there,
                                                uint64_t *low) {
    uint64_t high = 0;
    return dstm_ordered_remove(me, map, key, there, low, &high);
}
/* Tells the first key with its value, if there is one: there is 1 then. Else it is 0, and the others are as they were. */
static inline dstm_code dstm_ordered_first(dstm_thread *me, dstm_ordered map, uint32_t *there,
                                           uint64_t *key, uint64_t *low, uint64_t *high) {
    return DSTM_CALL(me && there && key && low && high && key != low && key != high && low != high,
                     dstmc_ordered_first(me, map.first, map.capacity, there, key, low, high));
}
/* The same of the last key. */
static inline dstm_code dstm_ordered_last(dstm_thread *me, dstm_ordered map, uint32_t *there,
                                          uint64_t *key, uint64_t *low, uint64_t *high) {
    return DSTM_CALL(me && there && key && low && high && key != low && key != high && low != high,
                     dstmc_ordered_last(me, map.first, map.capacity, there, key, low, high));
}
/* The same of the first key above a bound, which need not be there. */
static inline dstm_code dstm_ordered_next_above(dstm_thread *me, dstm_ordered map, uint64_t bound, uint32_t *there,
                                                uint64_t *key, uint64_t *low, uint64_t *high) {
    return DSTM_CALL(me && there && key && low && high && key != low && key != high && low != high,
                     dstmc_ordered_next_above(me, map.first, map.capacity, bound, there, key, low, high));
}
/* The same of the last key below a bound, which need not be there. */
static inline dstm_code dstm_ordered_next_below(dstm_thread *me, dstm_ordered map, uint64_t bound, uint32_t *there,
                                                uint64_t *key, uint64_t *low, uint64_t *high) {
    return DSTM_CALL(me && there && key && low && high && key != low && key != high && low != high,
                     dstmc_ordered_next_below(me, map.first, map.capacity, bound, there, key, low, high));
}
/* Takes the first key out, and tells it with its value, if there is one: as dstm_ordered_first does. */
static inline dstm_code dstm_ordered_pop_first(dstm_thread *me, dstm_ordered map, uint32_t *there,
                                               uint64_t *key, uint64_t *low, uint64_t *high) {
    return DSTM_CALL(me && there && key && low && high && key != low && key != high && low != high,
                     dstmc_ordered_pop_first(me, map.first, map.capacity, there, key, low, high));
}
/* The same of the last key. */
static inline dstm_code dstm_ordered_pop_last(dstm_thread *me, dstm_ordered map, uint32_t *there,
                                              uint64_t *key, uint64_t *low, uint64_t *high) {
    return DSTM_CALL(me && there && key && low && high && key != low && key != high && low != high,
                     dstmc_ordered_pop_last(me, map.first, map.capacity, there, key, low, high));
}
/* Tells the keys that are not below from, with their values, in their order: so many at most, and how many there were.
   To go on, ask again from behind the last one. It costs what dstm_ordered_next_above costs for each. Where it answers a
   code that is not OK some entries may be written, and count is as it was. */
static inline dstm_code dstm_ordered_scan(dstm_thread *me, dstm_ordered map, uint64_t from, uint32_t most,
                                          dstm_entry *entries, uint32_t *count) {
    uint32_t n = 0, there = 0;
    if (!entries || !count) return DSTM_NULL;
    while (n < most) {
        dstm_entry *it = &entries[n];
        dstm_code code = from ? dstm_ordered_next_above(me, map, from - 1, &there, &it->key, &it->low, &it->high)
                              : dstm_ordered_first(me, map, &there, &it->key, &it->low, &it->high);
        if (code) return code;
        if (!there) break;
        n++;
        if (it->key == UINT64_MAX) break;
        from = it->key + 1;
    }
    *count = n;
    return DSTM_OK;
}

/* A set of numbers that tells them by their order: a dstm_ordered without values, of which all holds that is said there.
   (dstm_set is the call that puts a value into a cell.) */
typedef struct dstm_ordered_set { dstm_cell first; uint32_t capacity; } dstm_ordered_set;

/* A new set, which has room for so many keys, in three times as many cells and one more. */
static inline dstm_code dstm_set_new(dstm_memory *memory, uint32_t capacity, dstm_ordered_set *set) {
    dstm_ordered_set made = {0, capacity};
    dstm_code code = DSTM_CALL(memory && set, dstmc_set_new(memory, capacity, &made.first));
    if (!code) *set = made;
    return code;
}
/* How many keys it has: as dstm_map_len. */
static inline dstm_code dstm_set_len(dstm_thread *me, dstm_ordered_set set, uint64_t *length) {
    uint32_t count = 0;
    dstm_code code = DSTM_CALL(me && length, dstmc_set_len(me, set.first, set.capacity, &count));
    if (!code) *length = count;
    return code;
}
/* Tells whether a key is in it. */
static inline dstm_code dstm_set_contains(dstm_thread *me, dstm_ordered_set set, uint64_t key, uint32_t *there) {
    return DSTM_CALL(me && there, dstmc_set_contains(me, set.first, set.capacity, key, there));
}
/* Inserts a key, and tells how: DSTM_NEW; DSTM_INSTEAD, where it was there, or DSTM_NO_ROOM: then nothing is set. */
static inline dstm_code dstm_set_insert(dstm_thread *me, dstm_ordered_set set, uint64_t key, uint32_t *inserted) {
    return DSTM_CALL(me && inserted, dstmc_set_insert(me, set.first, set.capacity, key, inserted));
}
/* Takes a key out, and tells whether it was there. */
static inline dstm_code dstm_set_remove(dstm_thread *me, dstm_ordered_set set, uint64_t key, uint32_t *there) {
    return DSTM_CALL(me && there, dstmc_set_remove(me, set.first, set.capacity, key, there));
}
/* Tells the first key, if there is one: there is 1 then. Else it is 0, and key is as it was. */
static inline dstm_code dstm_set_first(dstm_thread *me, dstm_ordered_set set, uint32_t *there, uint64_t *key) {
    return DSTM_CALL(me && there && key, dstmc_set_first(me, set.first, set.capacity, there, key));
}
/* The same of the last key. */
static inline dstm_code dstm_set_last(dstm_thread *me, dstm_ordered_set set, uint32_t *there, uint64_t *key) {
    return DSTM_CALL(me && there && key, dstmc_set_last(me, set.first, set.capacity, there, key));
}
/* The same of the first key above a bound, which need not be there. */
static inline dstm_code dstm_set_next_above(dstm_thread *me, dstm_ordered_set set, uint64_t bound, uint32_t *there,
                                            uint64_t *key) {
    return DSTM_CALL(me && there && key, dstmc_set_next_above(me, set.first, set.capacity, bound, there, key));
}
/* The same of the last key below a bound, which need not be there. */
static inline dstm_code dstm_set_next_below(dstm_thread *me, dstm_ordered_set set, uint64_t bound, uint32_t *there,
                                            uint64_t *key) {
    return DSTM_CALL(me && there && key, dstmc_set_next_below(me, set.first, set.capacity, bound, there, key));
}
/* Takes the first key out, and tells it, if there is one: as dstm_set_first does. */
static inline dstm_code dstm_set_pop_first(dstm_thread *me, dstm_ordered_set set, uint32_t *there, uint64_t *key) {
    return DSTM_CALL(me && there && key, dstmc_set_pop_first(me, set.first, set.capacity, there, key));
}
/* The same of the last key. */
static inline dstm_code dstm_set_pop_last(dstm_thread *me, dstm_ordered_set set, uint32_t *there, uint64_t *key) {
    return DSTM_CALL(me && there && key, dstmc_set_pop_last(me, set.first, set.capacity, there, key));
}
/* Tells the keys that are not below from: as dstm_ordered_scan does. */
static inline dstm_code dstm_set_scan(dstm_thread *me, dstm_ordered_set set, uint64_t from, uint32_t most,
                                      uint64_t *keys, uint32_t *count) {
    uint32_t n = 0, there = 0;
    if (!keys || !count) return DSTM_NULL;
    while (n < most) {
        dstm_code code = from ? dstm_set_next_above(me, set, from - 1, &there, &keys[n])
                              : dstm_set_first(me, set, &there, &keys[n]);
        if (code) return code;
        if (!there) break;
        from = keys[n++];
        if (from++ == UINT64_MAX) break;
    }
    *count = n;
    return DSTM_OK;
}

#ifdef __cplusplus
}
#endif
#endif
