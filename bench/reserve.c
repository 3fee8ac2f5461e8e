/* reserve WHAT THREADS EACH: customers reserve flights, rooms and cars and give them back, after the program vacation of STAMP.
   It tells the nanoseconds of a transaction, on the clock and of the processors, and what the three maps come to: by tl2 they
   are hash maps of the library alone, and plain rows by mutex, a lock of the system, and by itm, gcc's transactions.
   Each customer is one thread's, so that the end is the same by any number of threads. `reserve.py` builds and runs it. */
#include "dstm.h"
#include <pthread.h>
#include <stdio.h>
#include <stdlib.h>
#include <string.h>
#include <time.h>

enum { ITEM, CUSTOMER, KEPT, MAPS, SORTS = 3, ITEMS = 4096, CUSTOMERS = 4096, MOST = 8, QUERIES = 4, PLACES = 65536 };
enum { TELL, TAKE, PUT };
#define ONE_LEFT (1ull << 32) /* an item has how many are taken, and this times how many are left; and its price */
#define SAFE __attribute__((transaction_safe))
#define PURE __attribute__((transaction_pure))
#define TRY(call) do { int code = (call); if (code) return code; } while (0)
struct task { int what; uint64_t customer, items[QUERIES]; };
static struct row { uint64_t key, low, high; } rows[MAPS][PLACES]; /* 0 is no key, and 1 is one that is gone */
static dstm_map maps[MAPS];
static int threads, each, locks;
static pthread_mutex_t lock = PTHREAD_MUTEX_INITIALIZER;
static pthread_barrier_t start;
static dstm_thread parts[64];
static PURE int by_library(dstm_thread *me, int does, int map, uint64_t key, uint64_t *low, uint64_t *high) {
    uint64_t had_low, had_high;
    uint32_t told;
    if (does == PUT) return dstm_map_put(me, maps[map], key, *low, *high, &told, &had_low, &had_high);
    return (does == TAKE ? dstm_map_remove : dstm_map_get)(me, maps[map], key, &told, low, high);
}
/* Tells what a map has for a key, and takes it out or not; or puts it in. */
static SAFE int on(dstm_thread *me, int does, int map, uint64_t key, uint64_t *low, uint64_t *high) {
    struct row *gone = NULL, *it;
    if (me) return by_library(me, does, map, key, low, high);
    for (uint64_t at = key * 11400714819323198485ull >> 48; (it = &rows[map][at % PLACES])->key; at++) {
        if (it->key == key + 2) break;
        if (it->key == 1 && !gone) gone = it;
    }
    if (does == PUT && !it->key && gone) it = gone;
    if (does == PUT) it->key = key + 2, it->low = *low, it->high = *high;
    else if (it->key) *low = it->low, *high = it->high, it->key = does == TAKE ? 1 : it->key;
    return 0;
}
static SAFE int put(dstm_thread *me, int map, uint64_t key, uint64_t low, uint64_t high) {
    return on(me, PUT, map, key, &low, &high);
}
static SAFE int add(dstm_thread *me, uint64_t item, uint64_t more) {
    uint64_t low = 0, price = 0;
    TRY(on(me, TELL, ITEM, item, &low, &price));
    return put(me, ITEM, item, low + more, price);
}
/* 90 of a hundred reserve the dearest item of each sort that they look at, 5 give all back, and 5 add to some items. */
static SAFE int run(dstm_thread *me, const struct task *it) {
    uint64_t best[SORTS] = {0}, most[SORTS] = {0}, low = 0, price = 0, item = 0, count = 0, bill = 0;
    for (int k = 0; it->what >= 95 && k < QUERIES; k++) TRY(add(me, it->items[k], ONE_LEFT));
    for (int k = 0; it->what < 90 && k < QUERIES; k++) {
        TRY(on(me, TELL, ITEM, item = it->items[k], &low, &price));
        if (low >= ONE_LEFT && price > most[item / ITEMS]) best[item / ITEMS] = item, most[item / ITEMS] = price;
    }
    if (it->what < 95) TRY(on(me, it->what < 90 ? TELL : TAKE, CUSTOMER, it->customer, &count, &bill));
    for (uint64_t n = 0; it->what >= 90 && n < count; n++) {
        TRY(on(me, TAKE, KEPT, it->customer * MOST + n, &item, &price));
        TRY(add(me, item, ONE_LEFT - 1));
    }
    if (it->what >= 90 || count + SORTS > MOST) return 0;
    for (int sort = 0; sort < SORTS; sort++) {
        if (!most[sort]) continue;
        TRY(add(me, best[sort], 1 - ONE_LEFT));
        TRY(put(me, KEPT, it->customer * MOST + count++, best[sort], most[sort]));
        bill += most[sort];
    }
    return put(me, CUSTOMER, it->customer, count, bill);
}
static dstm_code body(dstm_thread *me, void *with) { return (dstm_code)run(me, with); }
static uint64_t next(uint64_t *seed) { return (*seed = *seed * 6364136223846793005ull + 1442695040888963407ull) >> 33; }
static double now(clockid_t clock) { struct timespec t; return clock_gettime(clock, &t), t.tv_sec * 1e9 + t.tv_nsec; }

/* Each thread draws all tasks, and does those of its customers. */
static void *work(void *arg) {
    int me = (int)(intptr_t)arg;
    pthread_barrier_wait(&start);
    for (volatile int n = 0; n < each; n++) { /* gcc jumps back to the begin of a transaction of its own */
        uint64_t seed = (uint64_t)n * 11400714819323198485ull;
        struct task it = {(int)(next(&seed) % 100), next(&seed) % CUSTOMERS, {0}};
        for (int k = 0; k < QUERIES; k++) it.items[k] = next(&seed) % (SORTS * ITEMS);
        if ((int)(it.customer % (uint64_t)threads) != me) continue;
        if (parts[me].at) { if (dstm_atomically(&parts[me], body, &it)) abort(); }
        else if (locks) { pthread_mutex_lock(&lock); run(NULL, &it); pthread_mutex_unlock(&lock); }
        else __transaction_atomic { run(NULL, &it); }
    }
    return NULL;
}

int main(int n, char **args) {
    uint64_t seed = 2, sum = 0;
    dstm_memory memory = DSTM_ZERO;
    dstm_thread *first = n == 4 && !strcmp(args[1], "tl2") ? &parts[0] : NULL;
    pthread_t running[64];
    if (n != 4 || (threads = atoi(args[2])) < 1 || threads > 63) return 2;
    each = atoi(args[3]), locks = !strcmp(args[1], "mutex");
    if (first && dstm_memory_new(&memory, (uint32_t)threads, DSTM_TL2)) return 3;
    for (int map = 0; first && map < MAPS; map++) if (dstm_map_new(&memory, PLACES, &maps[map])) return 3;
    for (int i = 0; first && i < threads; i++) if (dstm_thread_new(&memory, &parts[i])) return 3;
    if (pthread_barrier_init(&start, NULL, (unsigned)threads + 1) || (first && dstm_begin(first))) return 3;
    for (uint64_t item = 0; item < SORTS * ITEMS; item++)
        if (put(first, ITEM, item, 1000 * ONE_LEFT, 50 + next(&seed) % 450)) return 3;
    if (first && dstm_commit(first)) return 3;
    for (int i = 0; i < threads; i++) pthread_create(&running[i], NULL, work, (void *)(intptr_t)i);
    double c = now(CLOCK_PROCESS_CPUTIME_ID), w = now(CLOCK_MONOTONIC);
    pthread_barrier_wait(&start);
    for (int i = 0; i < threads; i++) pthread_join(running[i], NULL);
    w = now(CLOCK_MONOTONIC) - w, c = now(CLOCK_PROCESS_CPUTIME_ID) - c;
    if (first && dstm_begin(first)) return 3;
    for (uint64_t key = 0, low = 0, high = 0; key < MAPS * CUSTOMERS * MOST; key++, low = high = 0) {
        if (on(first, TELL, (int)(key % MAPS), key / MAPS, &low, &high)) return 3;
        sum = sum * 31 + low * 7 + high;
    }
    printf("%.0f ns clock, %.0f ns processor, %016llx\n", w / each, c / each, (unsigned long long)sum);
    return 0;
}
