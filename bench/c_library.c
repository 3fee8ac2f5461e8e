/* c_library WHAT KIND THREADS EACH CELLS: nanoseconds for each transaction, on the clock and of the processors, of
     plain  plain words with nothing around them, for one thread: what the program's own part takes
     mutex  a pthread mutex around plain words
     itm    gcc's __transaction_atomic, by the method that ITM_DEFAULT_METHOD names
     tl2, polka, karma, polite, greedy  the library, by that engine
   A move takes one from a cell and gives it to another one (two reads, two writes); a read reads four cells. Each
   thread makes EACH transactions over CELLS cells. `c_library.py` builds and runs it. */
#define _GNU_SOURCE
#include "dstm.h"
#include <pthread.h>
#include <stdio.h>
#include <stdlib.h>
#include <string.h>
#include <time.h>

#define MOST 64
static int threads, each, cells;
static const char *what, *kind;
static const char *const engines[] = {"tl2", "polka", "karma", "polite", "greedy"};
static int engine = -1;
static uint64_t plain[4096];
static pthread_mutex_t lock = PTHREAD_MUTEX_INITIALIZER;
static dstm_memory memory = DSTM_ZERO;
static dstm_thread parts[MOST];
static dstm_cell names[4096];
static pthread_barrier_t start;
static uint64_t again[MOST];

static double now(clockid_t clock) {
    struct timespec t;
    clock_gettime(clock, &t);
    return t.tv_sec * 1e9 + t.tv_nsec;
}

static inline uint64_t next(uint64_t *s) {
    *s = *s * 6364136223846793005ull + 1442695040888963407ull;
    return *s >> 33;
}

struct two { int from, to; uint64_t sum; };

static dstm_code move(dstm_thread *t, void *with) {
    struct two *it = with;
    uint64_t a, b;
    dstm_code code;
    if ((code = dstm_get_u64(t, names[it->from], &a))) return code;
    if ((code = dstm_get_u64(t, names[it->to], &b))) return code;
    if ((code = dstm_set_u64(t, names[it->from], a - 1))) return code;
    return dstm_set_u64(t, names[it->to], b + 1);
}

static dstm_code look(dstm_thread *t, void *with) {
    struct two *it = with;
    uint64_t a, sum = 0;
    dstm_code code;
    for (int k = 0; k < 4; k++) {
        if ((code = dstm_get_u64(t, names[(it->from + k) % cells], &a))) return code;
        sum += a;
    }
    it->sum = sum;
    return DSTM_OK;
}

static void *work(void *arg) {
    int me = (int)(intptr_t)arg;
    volatile uint64_t out = 0; /* gcc jumps back to the begin of a transaction of its own */
    volatile int i;
    uint64_t seed = 88172645463325252ull + 7919 * me;
    int reads = !strcmp(kind, "read"), locks = !strcmp(what, "mutex"), plainly = !strcmp(what, "plain");
    pthread_barrier_wait(&start);
    for (i = 0; i < each; i++) {
        struct two it;
        it.from = next(&seed) % cells;
        it.to = (it.from + 1 + next(&seed) % (cells > 1 ? cells - 1 : 1)) % cells;
        if (locks || plainly) {
            if (locks) pthread_mutex_lock(&lock);
            if (reads) {
                uint64_t sum = 0;
                for (int k = 0; k < 4; k++) sum += plain[(it.from + k) % cells];
                out += sum;
            } else { plain[it.from]--; plain[it.to]++; }
            if (locks) pthread_mutex_unlock(&lock);
        } else if (engine < 0) {
            if (reads) {
                uint64_t sum = 0;
                __transaction_atomic { sum = 0; for (int k = 0; k < 4; k++) sum += plain[(it.from + k) % cells]; }
                out += sum;
            } else __transaction_atomic { plain[it.from]--; plain[it.to]++; }
        } else {
            dstm_code code = dstm_atomically(&parts[me], reads ? look : move, &it);
            if (code) { fprintf(stderr, "code %d at %d\n", code, i); exit(1); }
            out += it.sum;
        }
    }
    again[me] = out;
    return NULL;
}

int main(int n, char **args) {
    if (n != 6) return 2;
    for (int i = 0; i < 5; i++) if (!strcmp(args[1], engines[i])) engine = i;
    what = args[1]; kind = args[2]; threads = atoi(args[3]); each = atoi(args[4]); cells = atoi(args[5]);
    pthread_t t[MOST];
    pthread_barrier_init(&start, NULL, threads + 1);
    for (int i = 0; i < cells; i++) plain[i] = 1000;
    if (engine >= 0) {
        if (dstm_memory_new(&memory, threads, (dstm_engine)engine)) return 3;
        for (int i = 0; i < cells; i++) dstm_cell_new_u64(&memory, 1000, &names[i]);
        for (int i = 0; i < threads; i++) if (dstm_thread_new(&memory, &parts[i])) return 3;
    }
    for (int i = 0; i < threads; i++) pthread_create(&t[i], NULL, work, (void *)(intptr_t)i);
    double c = now(CLOCK_PROCESS_CPUTIME_ID), w = now(CLOCK_MONOTONIC);
    pthread_barrier_wait(&start);
    for (int i = 0; i < threads; i++) pthread_join(t[i], NULL);
    w = now(CLOCK_MONOTONIC) - w; c = now(CLOCK_PROCESS_CPUTIME_ID) - c;
    uint64_t all = 0, low;
    for (int i = 0; i < cells; i++) all += plain[i];
    if (engine >= 0) {
        all = 0;
        for (int i = 0; i < threads; i++) dstm_thread_free(&parts[i]);
        for (int i = 0; i < cells; i++) { dstm_peek_u64(&memory, names[i], &low); all += low; }
    }
    printf("%s %s %d threads %d cells: %.0f ns clock, %.0f ns processor%s\n", what, kind, threads, cells,
        w / (1.0 * threads * each), c / (1.0 * threads * each), all == 1000ull * cells ? "" : " WRONG");
    return all != 1000ull * cells;
}
