/* Threads that wait: a turn that goes from one to the other, beside threads that do not wait, too; how long a wait is, and
   what it takes of the processor; and who wakes it. Behind an engine the program may be told how often two threads hand
   the turn over. */
#include "common.h"
#include <sys/resource.h>

#define BUSY 4
#define MEALS 100
#define EACH 500
static uint64_t handed = 5000, threads;
static dstm_thread parts[8];
static dstm_cell turn, forks[5];
static dstm_queue queue;
static int ended;

#define MILLISECOND ((uint64_t)1000000)
static void pass(uint64_t milliseconds) { dstm_sleep(milliseconds * MILLISECOND); }

/* Moves the turn on from a number. */
static dstm_code move_on(dstm_thread *me, void *with) {
    uint64_t *number = with, is = 0;
    dstm_code code = dstm_get_u64(me, turn, &is);
    if (code) return code;
    return is == *number ? dstm_set_u64(me, turn, is + 1) : DSTM_RETRY;
}

/* Waits again where nothing has changed for long, as on a machine that does much else. */
static void make(dstm_thread *me, dstm_body body, void *with) {
    dstm_code code;
    do code = dstm_atomically(me, body, with);
    while (code == DSTM_RETRY);
    IS(DSTM_OK, code);
}

static void *hands_over(void *part) {
    uint64_t number = (uint64_t)((dstm_thread *)part - parts), i;
    for (i = 0; i < handed * 2 / threads; i++, number += threads) {
        uint64_t at = number;
        make(part, move_on, &at);
    }
    return NULL;
}

static void *busy(void *with) {
    (void)with;
    while (!__atomic_load_n(&ended, __ATOMIC_RELAXED)) dstm_pause(1);
    return NULL;
}

static dstm_code put(dstm_thread *me, void *with) { return dstm_queue_push_u64(me, queue, *(uint64_t *)with); }
static dstm_code take(dstm_thread *me, void *with) { return dstm_queue_pop_u64(me, queue, with); }
static void *puts_in(void *part) {
    uint64_t i;
    for (i = 0; i < EACH; i++) make(part, put, &i);
    return NULL;
}
static uint64_t sums[8];
static void *takes_out(void *part) {
    uint64_t got = 0, i;
    for (i = 0; i < EACH; i++) {
        make(part, take, &got);
        sums[(dstm_thread *)part - parts] += got;
    }
    return NULL;
}

/* Takes both forks of a philosopher, or gives them back. */
static dstm_code both(dstm_thread *me, void *with) {
    int *forks_of = with, i;
    dstm_code code = DSTM_OK;
    for (i = 0; !code && i < 2; i++) {
        uint64_t taken = 0;
        code = dstm_get_u64(me, forks[(forks_of[0] + i) % 5], &taken);
        if (!code && taken && forks_of[1]) code = DSTM_RETRY;
        if (!code) code = dstm_set_u64(me, forks[(forks_of[0] + i) % 5], (uint64_t)forks_of[1]);
    }
    return code;
}
static void *eats(void *part) {
    int forks_of[2], i;
    forks_of[0] = (int)((dstm_thread *)part - parts);
    for (i = 0; i < 2 * MEALS; i++) {
        forks_of[1] = i % 2 == 0;
        make(part, both, forks_of);
    }
    return NULL;
}

static dstm_memory open_memory(uint32_t parts_of, dstm_engine engine) {
    dstm_memory memory = DSTM_ZERO;
    uint32_t i;
    IS(DSTM_OK, dstm_memory_new(&memory, parts_of, engine));
    IS(DSTM_OK, dstm_cell_new_u64(&memory, 0, &turn));
    IS(DSTM_OK, dstm_queue_new(&memory, 8, &queue));
    for (i = 0; i < 5; i++) IS(DSTM_OK, dstm_cell_new_u64(&memory, 0, &forks[i]));
    for (i = 0; i < parts_of; i++) IS(DSTM_OK, dstm_thread_new(&memory, &parts[i]));
    return memory;
}

static void close_memory(dstm_memory *memory, uint32_t parts_of, uint64_t wanted) {
    uint64_t is = 0;
    uint32_t i;
    for (i = 0; i < parts_of; i++) IS(DSTM_OK, dstm_thread_free(&parts[i]));
    IS(DSTM_OK, dstm_peek_u64(memory, turn, &is));
    IS(1, is == wanted);
    IS(DSTM_OK, dstm_memory_free(memory));
}

static void turns(dstm_engine engine, uint64_t count) {
    void *(*works[8])(void *);
    dstm_memory memory = open_memory((uint32_t)count, engine);
    for (threads = 0; threads < count; threads++) works[threads] = hands_over;
    run_all((int)count, parts, works);
    close_memory(&memory, (uint32_t)count, handed * 2 / count * count);
}

/* A queue and five philosophers, while as many threads keep the processors busy. */
static void beside_busy_ones(dstm_engine engine) {
    void *(*const passing[4])(void *) = {puts_in, puts_in, takes_out, takes_out};
    void *(*const eating[5])(void *) = {eats, eats, eats, eats, eats};
    dstm_memory memory = open_memory(5, engine);
    pthread_t running[BUSY];
    int i;
    ended = 0, sums[2] = sums[3] = 0;
    for (i = 0; i < BUSY; i++) IS(0, pthread_create(&running[i], NULL, busy, NULL));
    run_all(4, parts, passing);
    IS(EACH * (EACH - 1), sums[2] + sums[3]);
    run_all(5, parts, eating);
    __atomic_store_n(&ended, 1, __ATOMIC_RELAXED);
    for (i = 0; i < BUSY; i++) IS(0, pthread_join(running[i], NULL));
    close_memory(&memory, 5, 0);
}

static uint64_t at, came; /* the number that is waited for, and when it came */
static void *waits(void *part) {
    uint64_t number = at;
    make(part, move_on, &number);
    came = dstm_now(DSTM_CLOCK);
    return NULL;
}

static dstm_code set_it(dstm_thread *me, void *with) { return dstm_set_u64(me, turn, *(uint64_t *)with); }
static dstm_code ring_not(dstm_thread *me) {
    dstm_code code;
    do {
        code = dstm_begin(me);
        if (!code) code = set_it(me, &at);
        if (!code) code = (dstm_code)dstmc_commit(me);
    } while (code == DSTM_AGAIN);
    return code;
}

/* One that has waited for so many milliseconds wakes soon behind a commit, in less than so many, at least once: without a
   bell it never does, however often it is tried. */
static void wakes(dstm_engine engine, uint64_t milliseconds, int rings, uint64_t soon) {
    uint64_t begun;
    int i, hits = 0;
    for (i = 0; i < 9; i++) {
        dstm_memory memory = open_memory(2, engine);
        pthread_t running;
        at = 7;
        IS(0, pthread_create(&running, NULL, waits, &parts[0]));
        pass(milliseconds);
        begun = dstm_now(DSTM_CLOCK);
        IS(DSTM_OK, rings ? dstm_atomically(&parts[1], set_it, &at) : ring_not(&parts[1]));
        IS(0, pthread_join(running, NULL));
        hits += came - begun < soon * MILLISECOND;
        close_memory(&memory, 2, 8);
    }
    IS(1, hits > 0);
}

/* The processor's milliseconds that the program has taken. */
static uint64_t used(void) {
    struct rusage it;
    IS(0, getrusage(RUSAGE_SELF, &it));
    return (uint64_t)(it.ru_utime.tv_sec + it.ru_stime.tv_sec) * 1000 +
           (uint64_t)(it.ru_utime.tv_usec + it.ru_stime.tv_usec) / 1000;
}

/* One waits for 2 s, and takes next to nothing of the processor. */
static void sleeps(dstm_engine engine) {
    uint64_t before, taken;
    dstm_memory memory = open_memory(1, engine);
    at = 7;
    before = used();
    IS(DSTM_RETRY, dstm_atomically_within(&parts[0], 2000 * MILLISECOND, move_on, &at));
    taken = used() - before;
#ifdef DSTM_BELL
    IS(1, taken < 50);
#else
    IS(1, taken < 1000);
#endif
    close_memory(&memory, 1, 0);
}

static void *changes(void *part) {
    while (!__atomic_load_n(&ended, __ATOMIC_RELAXED)) {
        uint64_t number = 0;
        make(part, set_it, &number);
        pass(5);
    }
    return NULL;
}

/* Patience: of one wait, of all of a transaction, and none. */
static void patience(dstm_engine engine) {
    dstm_memory memory = open_memory(2, engine);
    uint64_t is = 0, since;
    pthread_t running;
    at = 7;
    IS(DSTM_OK, dstm_begin(&parts[0]));
    IS(DSTM_OK, dstm_get_u64(&parts[0], turn, &is));
    since = dstm_now(DSTM_CLOCK);
    IS(DSTM_RETRY, dstm_wait_for(&parts[0], 30 * MILLISECOND));
    IS(1, dstm_now(DSTM_CLOCK) - since >= 30 * MILLISECOND);
    IS(DSTM_IDLE, dstm_wait_for(&parts[0], 0));
    IS(DSTM_OK, dstm_begin(&parts[0]));
    IS(DSTM_RETRY, dstm_wait_for(&parts[0], 0));
    IS(DSTM_RETRY, dstm_atomically_within(&parts[0], 0, move_on, &at));
    /* what changes meanwhile gives no new patience */
    ended = 0;
    IS(0, pthread_create(&running, NULL, changes, &parts[1]));
    since = dstm_now(DSTM_CLOCK);
    IS(DSTM_RETRY, dstm_atomically_within(&parts[0], 60 * MILLISECOND, move_on, &at));
    IS(1, dstm_now(DSTM_CLOCK) - since >= 60 * MILLISECOND);
    __atomic_store_n(&ended, 1, __ATOMIC_RELAXED);
    IS(0, pthread_join(running, NULL));
    close_memory(&memory, 2, 0);
}

static void test(dstm_engine engine) {
    turns(engine, 2);
    turns(engine, 8);
    beside_busy_ones(engine);
    patience(engine);
    sleeps(engine);
    wakes(engine, 150, 1, 40); /* by itself it would look some 80 ms later */
    wakes(engine, 20, 0, 200);
    printf("%s: %llu hand-overs\n", engines[engine], (unsigned long long)(handed * 4));
}

static void turns_alone(dstm_engine engine) { turns(engine, 2); }

int main(int count, char **words) {
    if (count > 2) handed = (uint64_t)atol(words[2]);
    return for_engines(count, words, count > 2 ? turns_alone : test);
}
