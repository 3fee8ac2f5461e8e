/* A bounded queue: beside a plain ring, by calls that come by chance; and between two producers and two consumers, which
   wait by DSTM_RETRY: each number comes out once. */
#include "common.h"
#include <string.h>

#define ROOM 8
#define EACH 1000
static dstm_thread parts[4];
static dstm_queue queue;
static uint64_t got[2][EACH];

static dstm_code put(dstm_thread *me, void *with) {
    uint64_t *number = with;
    return dstm_queue_push(me, queue, *number, *number + 1);
}

static dstm_code take(dstm_thread *me, void *with) {
    uint64_t *number = with, after = 0;
    dstm_code code = dstm_queue_pop(me, queue, number, &after);
    return code ? code : after == *number + 1 ? DSTM_OK : DSTM_RANGE;
}

static void *producer(void *arg) {
    dstm_thread *me = arg;
    uint64_t first = (uint64_t)(me - parts) * EACH, i;
    for (i = 0; i < EACH; i++) {
        uint64_t number = first + i;
        wait_for(me, put, &number);
    }
    return NULL;
}

static void *consumer(void *arg) {
    dstm_thread *me = arg;
    int i;
    for (i = 0; i < EACH; i++) wait_for(me, take, &got[me - parts - 2][i]);
    return NULL;
}

/* One thread alone: the first one in is the first one out, and a full one and an empty one are left as they are. */
static void alone(dstm_thread *me) {
    uint64_t low = 0, high = 0, length = 9, i;
    IS(DSTM_OK, dstm_begin(me));
    IS(DSTM_OK, dstm_queue_len(me, queue, &length));
    IS(0, length);
    IS(DSTM_RETRY, dstm_queue_front(me, queue, &low, &high));
    IS(DSTM_RETRY, dstm_queue_pop_u64(me, queue, &low));
    for (i = 0; i < ROOM; i++) IS(DSTM_OK, dstm_queue_push_u64(me, queue, i));
    IS(DSTM_RETRY, dstm_queue_push_u64(me, queue, i));
    IS(DSTM_OK, dstm_queue_len(me, queue, &length));
    IS(ROOM, length);
    for (i = 0; i < ROOM; i++) {
        IS(DSTM_OK, dstm_queue_front(me, queue, &low, &high));
        IS(i, low);
        IS(DSTM_OK, dstm_queue_pop_u64(me, queue, &low));
        IS(i, low);
    }
    IS(DSTM_RETRY, dstm_queue_pop_u64(me, queue, &low));
    IS(DSTM_NULL, dstm_queue_len(me, queue, NULL));
    IS(DSTM_OK, dstm_commit(me));
}

/* What cannot be, by the code that it has. */
static void misused(dstm_memory *memory, dstm_thread *me) {
    dstm_queue made = {0, 0}, wide = {queue.first + 1, 524287}, far = {queue.first + 1, ROOM}, none = {queue.first, 0};
    uint64_t low = 7, high = 8;
    uint32_t pushed = 9;
    IS(DSTM_BUSY, dstm_queue_new(memory, 4, &made));
    IS(DSTM_IDLE, dstm_queue_front(me, queue, &low, &high));
    IS(DSTM_OK, dstm_begin(me));
    IS(DSTM_NULL, dstm_queue_try_push(me, queue, 1, 1, NULL));
    IS(DSTM_NULL, dstm_queue_pop(me, queue, &low, &low));
    IS(DSTM_RANGE, dstm_queue_try_push(me, none, 1, 1, &pushed));
    IS(DSTM_RANGE, dstm_queue_front(me, wide, &low, &high));
    IS(DSTM_OK, dstm_abort(me));
    IS(DSTM_OK, dstm_begin(me));
    far.first += 1000;
    IS(DSTM_FOREIGN, dstm_queue_try_push(me, far, 1, 1, &pushed));
    IS(DSTM_OK, dstm_abort(me));
    IS(9, pushed);
    IS(7, low);
    IS(8, high);
}

/* Calls by chance beside a plain ring. A transaction of several is given up now and then, and nothing of it is there. */
static void beside_a_ring(dstm_thread *me) {
    uint64_t ring[ROOM][2], trial[ROOM][2], seed = 1, low, high, length;
    unsigned at = 0, count = 0, from, had, round, calls;
    uint32_t done;
    for (round = 0; round < 2000; round++) {
        memcpy(trial, ring, sizeof ring);
        from = at, had = count;
        IS(DSTM_OK, dstm_begin(me));
        for (calls = chance(&seed) % 12; calls; calls--) {
            low = chance(&seed), high = chance(&seed), done = 7;
            if (low % 2) {
                IS(DSTM_OK, dstm_queue_try_push(me, queue, low, high, &done));
                IS(had < ROOM, done);
                if (done) trial[(from + had) % ROOM][0] = low, trial[(from + had++) % ROOM][1] = high;
                continue;
            }
            low = high = 7;
            if (had) {
                IS(DSTM_OK, dstm_queue_front(me, queue, &low, &high));
                IS(1, low == trial[from][0] && high == trial[from][1]);
            }
            IS(DSTM_OK, dstm_queue_try_pop(me, queue, &done, &low, &high));
            IS(had > 0, done);
            IS(1, low == (had ? trial[from][0] : 7) && high == (had ? trial[from][1] : 7));
            if (had) from = (from + 1) % ROOM, had--;
        }
        IS(DSTM_OK, dstm_queue_len(me, queue, &length));
        IS(had, length);
        if (chance(&seed) % 4 == 0) {
            IS(DSTM_OK, dstm_abort(me));
            continue;
        }
        IS(DSTM_OK, dstm_commit(me));
        memcpy(ring, trial, sizeof ring);
        at = from, count = had;
    }
    IS(DSTM_OK, dstm_begin(me));
    while (count--) IS(DSTM_OK, dstm_queue_pop_u64(me, queue, &low));
    IS(DSTM_RETRY, dstm_queue_pop_u64(me, queue, &low));
    IS(DSTM_OK, dstm_commit(me));
}

static void test(dstm_engine engine) {
    static unsigned char seen[2 * EACH];
    dstm_memory memory = DSTM_ZERO;
    void *(*works[4])(void *) = {producer, producer, consumer, consumer};
    uint64_t number, last[2];
    int i, k, of;
    memset(seen, 0, sizeof seen);
    IS(DSTM_OK, dstm_memory_new(&memory, 4, engine));
    IS(DSTM_RANGE, dstm_queue_new(&memory, 0, &queue));
    IS(DSTM_NULL, dstm_queue_new(&memory, 1, NULL));
    IS(DSTM_OK, dstm_queue_new(&memory, ROOM, &queue));
    for (i = 0; i < 4; i++) IS(DSTM_OK, dstm_thread_new(&memory, &parts[i]));
    alone(&parts[0]);
    misused(&memory, &parts[0]);
    beside_a_ring(&parts[0]);
    run_all(4, parts, works);
    for (i = 0; i < 2; i++) {
        last[0] = last[1] = 0;
        for (k = 0; k < EACH; k++) {
            IS(0, seen[got[i][k]]++);
            of = got[i][k] >= EACH; /* what one producer has put in comes in its order */
            IS(1, got[i][k] >= last[of]);
            last[of] = got[i][k];
        }
    }
    for (k = 0; k < 2 * EACH; k++) IS(1, seen[k]);
    /* it is empty, and nobody puts anything in */
    IS(DSTM_RETRY, dstm_atomically_for(&parts[0], 1000, take, &number));
    for (i = 0; i < 4; i++) IS(DSTM_OK, dstm_thread_free(&parts[i]));
    IS(DSTM_OK, dstm_memory_free(&memory));
    printf("%s: each of %d numbers once\n", engines[engine], 2 * EACH);
}

int main(int count, char **words) { return for_engines(count, words, test); }
