/* c_waiting WHAT BY COUNT [MORE]: threads that wait, by an engine of the library for C, or by a mutex and condition variables
   (BY mutex). It tells two numbers. WHAT is
   idle: one waits for COUNT milliseconds; the processor's milliseconds that it takes;
   wake: one is woken COUNT times, each MORE microseconds after the last time; the microseconds from the commit to its return,
   the median and that of 99 of 100;
   turns: MORE threads hand a turn over, COUNT times each; the nanoseconds of a hand-over, on the clock and of the processors;
   queue: two pass COUNT numbers each to two others through eight places; the same of a number;
   counter: MORE threads add to one cell, COUNT times each; the same of an addition. */
#define _GNU_SOURCE
#include "dstm.h"
#include <pthread.h>
#include <stdio.h>
#include <stdlib.h>
#include <string.h>
#include <time.h>

#define MOST 64
#define PLACES 8

static const char *const engines[] = {"tl2", "polka", "karma", "polite", "greedy", "mutex"};
static dstm_memory memory = DSTM_ZERO;
static dstm_thread parts[MOST];
static dstm_cell cell;
static dstm_queue queue;
static pthread_mutex_t lock = PTHREAD_MUTEX_INITIALIZER;
static pthread_cond_t changed = PTHREAD_COND_INITIALIZER;
static pthread_cond_t has_room = PTHREAD_COND_INITIALIZER, has_items = PTHREAD_COND_INITIALIZER;
static uint64_t value, held, taken, count, more, threads, places[PLACES], *times, *sent;
static int locks;

static uint64_t now(int clock) {
    struct timespec time;
    clock_gettime(clock, &time);
    return (uint64_t)time.tv_sec * 1000000000 + (uint64_t)time.tv_nsec;
}

static void rest(uint64_t nanoseconds) {
    struct timespec time = {(time_t)(nanoseconds / 1000000000), (long)(nanoseconds % 1000000000)};
    nanosleep(&time, NULL);
}

static void make(uint64_t me, dstm_body body, void *with) {
    dstm_code code;
    do code = dstm_atomically(&parts[me], body, with);
    while (code == DSTM_RETRY);
    if (!code) return;
    fprintf(stderr, "%s\n", dstm_code_text(code));
    exit(1);
}

/* The cell, from one number to the next one. */
static dstm_code next(dstm_thread *me, void *with) {
    uint64_t *at = with, is = 0;
    dstm_code code = dstm_get_u64(me, cell, &is);
    if (!code && is != *at) return DSTM_RETRY;
    return code ? code : dstm_set_u64(me, cell, is + 1);
}
static void move_on(uint64_t me, uint64_t at) {
    if (!locks) {
        make(me, next, &at);
        return;
    }
    pthread_mutex_lock(&lock);
    while (value != at) pthread_cond_wait(&changed, &lock);
    value++;
    pthread_mutex_unlock(&lock);
    pthread_cond_broadcast(&changed);
}

static dstm_code add(dstm_thread *me, void *with) {
    uint64_t is = 0;
    dstm_code code = dstm_get_u64(me, cell, &is);
    (void)with;
    return code ? code : dstm_set_u64(me, cell, is + 1);
}

static dstm_code put(dstm_thread *me, void *with) { return dstm_queue_push_u64(me, queue, *(uint64_t *)with); }
static dstm_code take(dstm_thread *me, void *with) { return dstm_queue_pop_u64(me, queue, with); }
static void pass(uint64_t me, uint64_t number) {
    uint64_t got = number;
    if (!locks) {
        make(me, me % 2 ? take : put, &got);
        return;
    }
    pthread_mutex_lock(&lock);
    while (held == (me % 2 ? 0 : PLACES)) pthread_cond_wait(me % 2 ? &has_items : &has_room, &lock);
    if (me % 2) held--, got = places[taken++ % PLACES];
    else places[(taken + held++) % PLACES] = number;
    pthread_cond_signal(me % 2 ? &has_room : &has_items);
    pthread_mutex_unlock(&lock);
}

static void *idle(void *arg) {
    uint64_t me = (uint64_t)(uintptr_t)arg, begun = now(CLOCK_THREAD_CPUTIME_ID);
    if (me) rest(count * 1000000);
    move_on(me, me ? 0 : 1);
    if (!me) times[0] = now(CLOCK_THREAD_CPUTIME_ID) - begun;
    return NULL;
}

static void *wake(void *arg) {
    uint64_t me = (uint64_t)(uintptr_t)arg, i;
    for (i = 0; i < count; i++) {
        if (me) {
            rest(more * 1000);
            __atomic_store_n(&sent[i], now(CLOCK_MONOTONIC), __ATOMIC_RELEASE);
        }
        move_on(me, 2 * i + (me ? 0 : 1));
        if (!me) times[i] = now(CLOCK_MONOTONIC) - __atomic_load_n(&sent[i], __ATOMIC_ACQUIRE);
    }
    return NULL;
}
static void *turns(void *arg) {
    uint64_t me = (uint64_t)(uintptr_t)arg, i;
    for (i = 0; i < count; i++) move_on(me, i * threads + me);
    return NULL;
}
static void *passes(void *arg) {
    uint64_t me = (uint64_t)(uintptr_t)arg, i;
    for (i = 0; i < count; i++) pass(me, i);
    return NULL;
}
static void *adds(void *arg) {
    uint64_t me = (uint64_t)(uintptr_t)arg, i;
    for (i = 0; i < count; i++) {
        if (locks) {
            pthread_mutex_lock(&lock);
            value++;
            pthread_mutex_unlock(&lock);
        } else make(me, add, NULL);
    }
    return NULL;
}

static int by_size(const void *a, const void *b) {
    uint64_t x = *(const uint64_t *)a, y = *(const uint64_t *)b;
    return x < y ? -1 : x > y;
}

int main(int words, char **word) {
    static const struct { const char *name; void *(*work)(void *); } all[] = {
        {"idle", idle}, {"wake", wake}, {"turns", turns}, {"queue", passes}, {"counter", adds}};
    pthread_t running[MOST];
    uint64_t i, begun;
    unsigned engine = 0, what = 0;
    if (words < 4) return 2;
    while (what < 5 && strcmp(word[1], all[what].name)) what++;
    while (engine < 6 && strcmp(word[2], engines[engine])) engine++;
    if (what == 5 || engine == 6) return 2;
    locks = engine == 5;
    count = strtoull(word[3], NULL, 10);
    more = words > 4 ? strtoull(word[4], NULL, 10) : 0;
    threads = what == 3 ? 4 : what < 2 ? 2 : more;
    times = calloc(count + 1, sizeof *times);
    sent = calloc(count + 1, sizeof *sent);
    if (!times || !sent || threads > MOST) return 2;
    if (!locks) {
        if (dstm_memory_new(&memory, (uint32_t)threads, (dstm_engine)engine)) return 2;
        if (dstm_cell_new_u64(&memory, 0, &cell) || dstm_queue_new(&memory, PLACES, &queue)) return 2;
        for (i = 0; i < threads; i++) if (dstm_thread_new(&memory, &parts[i])) return 2;
    }
    begun = now(CLOCK_MONOTONIC);
    for (i = 0; i < threads; i++) if (pthread_create(&running[i], NULL, all[what].work, (void *)(uintptr_t)i)) return 2;
    for (i = 0; i < threads; i++) pthread_join(running[i], NULL);
    begun = now(CLOCK_MONOTONIC) - begun;
    if (what == 0) printf("%.2f 0\n", (double)times[0] / 1e6);
    else if (what == 1) {
        qsort(times, count, sizeof *times, by_size);
        printf("%.1f %.1f\n", (double)times[count / 2] / 1e3, (double)times[count * 99 / 100] / 1e3);
    } else {
        double all = (double)(count * (what == 3 ? 2 : threads));
        printf("%.0f %.0f\n", (double)begun / all, (double)now(CLOCK_PROCESS_CPUTIME_ID) / all);
    }
    return 0;
}
