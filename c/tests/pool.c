/* Cells that transactions take out of a pool while threads run, and give back. Three threads put them on one list and
   take them from it: no cell is in two places, none is lost, and each holds what was put into it. Before that one takes and
   gives them by chance, beside plain marks. */
#include "common.h"
#include <string.h>

#define CELLS 6
#define EACH 1000
static dstm_thread parts[3];
static uint64_t sums[3]; /* what each has put on the list, less what it has taken from it */
static dstm_pool pool;
static dstm_cell list; /* the first cell of the list, and how many there are; each holds the next one, and a number */

struct step { uint64_t number, found; int has_put; };

static dstm_code put(dstm_thread *me, void *with) {
    struct step *step = with;
    uint64_t first = 0, count = 0;
    dstm_cell cell = 0;
    dstm_code code = dstm_get(me, list, &first, &count);
    step->has_put = 1;
    if (!code) code = dstm_pool_take(me, pool, first, step->number, &cell);
    return code ? code : dstm_set(me, list, cell, count + 1);
}

static dstm_code take(dstm_thread *me, void *with) {
    struct step *step = with;
    uint64_t first = 0, count = 0, next = 0;
    dstm_code code = dstm_get(me, list, &first, &count);
    step->has_put = 0;
    if (code) return code;
    if (!count) return DSTM_RETRY;
    code = dstm_get(me, (dstm_cell)first, &next, &step->found);
    if (!code) code = dstm_pool_give(me, pool, (dstm_cell)first);
    return code ? code : dstm_set(me, list, next, count - 1);
}

static dstm_code put_or_take(dstm_thread *me, void *with) { return dstm_or_else(me, put, take, with); }

static dstm_code take_or_put(dstm_thread *me, void *with) { return dstm_or_else(me, take, put, with); }

/* Nobody waits: where all cells are on the list one is taken from it, and where none is one is put there. */
static void *work(void *arg) {
    dstm_thread *me = arg;
    struct step step = {0, 0, 0};
    while (step.number++ < EACH) {
        IS(DSTM_OK, dstm_atomically(me, step.number % 3 ? put_or_take : take_or_put, &step));
        sums[me - parts] += step.has_put ? step.number : 0 - step.found;
    }
    return NULL;
}

/* Each cell is on the list or in the pool, and in one of them alone. */
static void count_all(dstm_thread *me) {
    int seen[CELLS] = {0}, i;
    uint64_t first = 0, count = 0, number = 0, sum = 0;
    dstm_cell cell = 0;
    IS(DSTM_OK, dstm_begin(me));
    IS(DSTM_OK, dstm_get(me, list, &first, &count));
    IS(1, count <= CELLS);
    for (i = 0; i < (int)count; i++) {
        IS(0, seen[first - pool.first]++);
        IS(DSTM_OK, dstm_get(me, (dstm_cell)first, &first, &number));
        sum += number;
    }
    IS(1, sum == sums[0] + sums[1] + sums[2]);
    for (; i < CELLS; i++) {
        IS(DSTM_OK, dstm_pool_take(me, pool, 7, 8, &cell));
        IS(0, seen[cell - pool.first]++);
    }
    IS(DSTM_RETRY, dstm_pool_take(me, pool, 7, 8, &cell));
    IS(DSTM_FOREIGN, dstm_pool_give(me, pool, list));
    IS(DSTM_FOREIGN, dstm_pool_give(me, pool, pool.first + CELLS));
    IS(DSTM_OK, dstm_pool_give(me, pool, pool.first));
    IS(DSTM_FOREIGN, dstm_pool_give(me, pool, pool.first)); /* it was given back */
    IS(DSTM_OK, dstm_pool_take(me, pool, 7, 8, &cell));
    IS(pool.first, cell);
    IS(DSTM_NULL, dstm_pool_take(me, pool, 7, 8, NULL));
    IS(DSTM_OK, dstm_abort(me));
}

/* What is taken by a transaction that is given up is not taken; and the first one from a place on that is free is taken. */
static void alone(dstm_thread *me) {
    uint64_t low = 0, high = 0;
    dstm_cell first = 0, second = 0, again = 0;
    IS(DSTM_OK, dstm_begin(me));
    IS(DSTM_OK, dstm_pool_take(me, pool, 3, 4, &first));
    IS(DSTM_OK, dstm_abort(me));
    IS(DSTM_OK, dstm_begin(me));
    IS(DSTM_OK, dstm_pool_take(me, pool, 3, 4, &again));
    IS(first, again);
    IS(DSTM_OK, dstm_get(me, first, &low, &high));
    IS(3, low);
    IS(4, high);
    IS(DSTM_OK, dstm_pool_take(me, pool, 5, 6, &second));
    IS(1, first != second);
    IS(DSTM_OK, dstm_pool_give(me, pool, first));
    IS(DSTM_OK, dstm_pool_take_from(me, pool, first - pool.first, 7, 8, &again));
    IS(first, again);
    IS(DSTM_OK, dstm_get(me, second, &low, &high));
    IS(5, low);
    IS(6, high);
    IS(DSTM_OK, dstm_pool_give(me, pool, first));
    IS(DSTM_OK, dstm_pool_give(me, pool, second));
    IS(DSTM_OK, dstm_commit(me));
}

/* What cannot be, by the code that it has. */
static void misused(dstm_memory *memory, dstm_thread *me) {
    dstm_pool made = {0, 0}, wide = {pool.first, 262144}, far = {pool.first + 1000, CELLS}, none = {pool.first, 0};
    dstm_cell cell = 77;
    IS(DSTM_BUSY, dstm_pool_new(memory, 4, &made));
    IS(DSTM_IDLE, dstm_pool_give(me, pool, pool.first));
    IS(DSTM_OK, dstm_begin(me));
    IS(DSTM_RANGE, dstm_pool_take(me, none, 1, 1, &cell));
    IS(DSTM_RANGE, dstm_pool_give(me, wide, pool.first));
    IS(DSTM_FOREIGN, dstm_pool_take(me, far, 1, 1, &cell));
    IS(DSTM_OK, dstm_abort(me));
    IS(77, cell);
}

/* Calls by chance beside plain marks. A transaction of several is given up now and then, and nothing of it is there. */
static void beside_marks(dstm_thread *me) {
    int marks[CELLS] = {0}, trial[CELLS], passed, at;
    uint64_t seed = 1, from, low, high;
    unsigned round, calls, left;
    dstm_cell cell;
    for (round = 0; round < 2000; round++) {
        memcpy(trial, marks, sizeof marks);
        IS(DSTM_OK, dstm_begin(me));
        for (calls = chance(&seed) % 12; calls; calls--) {
            from = chance(&seed), at = (int)(chance(&seed) % CELLS), cell = 0;
            if (from % 2) {
                IS(trial[at] ? DSTM_OK : DSTM_FOREIGN, dstm_pool_give(me, pool, pool.first + (dstm_cell)at));
                trial[at] = 0;
                continue;
            }
            for (passed = 0; passed < CELLS && trial[(from + (uint64_t)passed) % CELLS]; passed++) {}
            at = (int)((from + (uint64_t)passed) % CELLS);
            IS(passed < CELLS ? DSTM_OK : DSTM_RETRY, dstm_pool_take_from(me, pool, from, from, calls, &cell));
            if (passed == CELLS) continue;
            IS(pool.first + (dstm_cell)at, cell);
            IS(DSTM_OK, dstm_get(me, cell, &low, &high));
            IS(1, low == from && high == calls);
            trial[at] = 1;
        }
        if (chance(&seed) % 4 == 0) {
            IS(DSTM_OK, dstm_abort(me));
            continue;
        }
        IS(DSTM_OK, dstm_commit(me));
        memcpy(marks, trial, sizeof marks);
    }
    IS(DSTM_OK, dstm_begin(me));
    for (at = 0; at < CELLS; at++)
        if (marks[at]) IS(DSTM_OK, dstm_pool_give(me, pool, pool.first + (dstm_cell)at));
    for (left = 0; left < CELLS; left++) IS(DSTM_OK, dstm_pool_take(me, pool, 1, left, &cell));
    IS(DSTM_RETRY, dstm_pool_take(me, pool, 1, left, &cell));
    for (left = 0; left < CELLS; left++) IS(DSTM_OK, dstm_pool_give(me, pool, pool.first + left));
    IS(DSTM_OK, dstm_commit(me));
}

static void test(dstm_engine engine) {
    dstm_memory memory = DSTM_ZERO;
    void *(*works[3])(void *) = {work, work, work};
    int i;
    IS(DSTM_OK, dstm_memory_new(&memory, 3, engine));
    IS(DSTM_OK, dstm_cell_new(&memory, 0, 0, &list));
    IS(DSTM_RANGE, dstm_pool_new(&memory, 0, &pool));
    IS(DSTM_NULL, dstm_pool_new(&memory, 1, NULL));
    IS(DSTM_OK, dstm_pool_new(&memory, CELLS, &pool));
    for (i = 0; i < 3; i++) {
        IS(DSTM_OK, dstm_thread_new(&memory, &parts[i]));
        sums[i] = 0;
    }
    alone(&parts[0]);
    misused(&memory, &parts[0]);
    beside_marks(&parts[0]);
    run_all(3, parts, works);
    count_all(&parts[0]);
    for (i = 0; i < 3; i++) IS(DSTM_OK, dstm_thread_free(&parts[i]));
    IS(DSTM_OK, dstm_memory_free(&memory));
    printf("%s: no cell of %d is lost\n", engines[engine], CELLS);
}

int main(int count, char **words) { return for_engines(count, words, test); }
