/* Ordered sets: calls by chance beside plain marks; and four threads that move keys between two sets, so that each key is
   in one of them. */
#include "common.h"
#include <string.h>

#define ROOM 16
#define KEYS 24 /* more than there is room for */
#define MOVED 12
#define EACH 400
#define THREADS 4
static dstm_thread parts[THREADS];
static dstm_ordered_set set, other;

/* The least key and the greatest one, keys side by side, and keys of which each is the 16th part of the next one. */
static uint64_t key_of(int n) {
    return n == KEYS - 1 ? UINT64_MAX : n < 9 ? (uint64_t)n : (uint64_t)1 << 4 * (n - 8);
}

/* The first key that is there, from this one on: upwards or downwards. */
static int next_key(const int *is, int n, int by) {
    while (n >= 0 && n < KEYS && !is[n]) n += by;
    return n >= 0 && n < KEYS ? n : -1;
}

static int count_of(const int *is) {
    int n, count = 0;
    for (n = 0; n < KEYS; n++) count += is[n];
    return count;
}

static void call_one(dstm_thread *me, int *is, int n, unsigned what) {
    uint32_t told = 9;
    uint64_t key = 6;
    int up = what % 2, found = next_key(is, what < 4 ? (up ? 0 : KEYS - 1) : n + (up ? 1 : -1), up ? 1 : -1);
    switch (what) {
    case 0: IS(DSTM_OK, dstm_set_last(me, set, &told, &key)); break;
    case 1: IS(DSTM_OK, dstm_set_first(me, set, &told, &key)); break;
    case 2: IS(DSTM_OK, dstm_set_pop_last(me, set, &told, &key)); break;
    case 3: IS(DSTM_OK, dstm_set_pop_first(me, set, &told, &key)); break;
    case 4: IS(DSTM_OK, dstm_set_next_below(me, set, key_of(n), &told, &key)); break;
    case 5: IS(DSTM_OK, dstm_set_next_above(me, set, key_of(n), &told, &key)); break;
    case 6: IS(DSTM_OK, dstm_set_contains(me, set, key_of(n), &told)); break;
    case 7: IS(DSTM_OK, dstm_set_remove(me, set, key_of(n), &told)); break;
    default: IS(DSTM_OK, dstm_set_insert(me, set, key_of(n), &told)); break;
    }
    if (what < 6) {
        IS(found >= 0, told);
        IS(1, key == (told ? key_of(found) : 6));
        if (told && what / 2 == 1) is[found] = 0;
    } else if (what < 8) {
        IS(is[n], told);
        if (what == 7) is[n] = 0;
    } else {
        IS(is[n] ? DSTM_INSTEAD : count_of(is) == ROOM ? DSTM_NO_ROOM : DSTM_NEW, told);
        if (told == DSTM_NEW) is[n] = 1;
    }
}

static void scan(dstm_thread *me, const int *is, int n, uint32_t most) {
    uint64_t found[KEYS];
    uint32_t count = 99, k;
    IS(DSTM_OK, dstm_set_scan(me, set, key_of(n), most, found, &count));
    for (k = 0; k < count; k++, n++) {
        n = next_key(is, n, 1);
        IS(1, n >= 0 && found[k] == key_of(n));
    }
    IS(1, count == most || next_key(is, n, 1) < 0);
}

/* Calls by chance beside plain marks. A transaction of several is given up now and then. */
static void beside_marks(dstm_thread *me) {
    int is[KEYS] = {0}, trial[KEYS], round, calls, n;
    uint64_t seed = 1, length = 0;
    for (round = 0; round < 2000; round++) {
        memcpy(trial, is, sizeof is);
        IS(DSTM_OK, dstm_begin(me));
        for (calls = (int)(chance(&seed) % 12); calls; calls--) {
            n = (int)(chance(&seed) % KEYS);
            call_one(me, trial, n, chance(&seed) % 16);
        }
        scan(me, trial, (int)(chance(&seed) % KEYS), chance(&seed) % KEYS);
        IS(DSTM_OK, dstm_set_len(me, set, &length));
        IS(count_of(trial), length);
        if (chance(&seed) % 4 == 0) {
            IS(DSTM_OK, dstm_abort(me));
            continue;
        }
        scan(me, trial, 0, KEYS);
        IS(DSTM_OK, dstm_commit(me));
        memcpy(is, trial, sizeof is);
    }
    IS(DSTM_OK, dstm_begin(me));
    for (n = 0; n < KEYS; n++) call_one(me, is, n, 7);
    call_one(me, is, 0, 3);
    IS(DSTM_OK, dstm_commit(me));
}

/* What cannot be, by the code that it has. */
static void misused(dstm_memory *memory, dstm_thread *me) {
    dstm_ordered_set made = {0, 0}, far = {set.first + 1000, ROOM}, none = {set.first, 0};
    uint64_t key = 6, found[1];
    uint32_t told = 9;
    IS(DSTM_BUSY, dstm_set_new(memory, 4, &made));
    IS(DSTM_IDLE, dstm_set_insert(me, set, 1, &told));
    IS(DSTM_OK, dstm_begin(me));
    IS(DSTM_NULL, dstm_set_insert(me, set, 1, NULL));
    IS(DSTM_NULL, dstm_set_first(me, set, &told, NULL));
    IS(DSTM_NULL, dstm_set_scan(me, set, 1, 1, found, NULL));
    IS(DSTM_RANGE, dstm_set_contains(me, none, 1, &told));
    IS(DSTM_FOREIGN, dstm_set_next_below(me, far, 1, &told, &key));
    IS(DSTM_OK, dstm_abort(me));
    IS(1, told == 9 && key == 6);
}

/* Moves a key to the set in which it is not. */
static dstm_code move(dstm_thread *me, void *with) {
    uint64_t key = *(const uint64_t *)with;
    uint32_t was_here = 0, was_there = 0, inserted = 9;
    dstm_code code = dstm_set_remove(me, set, key, &was_here);
    if (!code) code = dstm_set_remove(me, other, key, &was_there);
    if (!code) IS(1, was_here + was_there);
    if (!code) code = dstm_set_insert(me, was_here ? other : set, key, &inserted);
    if (!code) IS(DSTM_NEW, inserted);
    return code;
}

static void *mover(void *arg) {
    dstm_thread *me = arg;
    uint64_t seed = (uint64_t)(me - parts) + 1, key;
    int i;
    for (i = 0; i < EACH; i++) {
        key = chance(&seed) % MOVED;
        IS(DSTM_OK, dstm_atomically(me, move, &key));
    }
    return NULL;
}

static dstm_code count_both(dstm_thread *me, void *with) {
    uint64_t *all = with, here = 0, there = 0;
    dstm_code code = dstm_set_len(me, set, &here);
    if (!code) code = dstm_set_len(me, other, &there);
    *all = here + there;
    return code;
}

static void *counter(void *arg) {
    uint64_t all = 0;
    int i;
    for (i = 0; i < EACH / 5; i++) {
        IS(DSTM_OK, dstm_atomically(arg, count_both, &all));
        IS(MOVED, all);
    }
    return NULL;
}

static void test(dstm_engine engine) {
    dstm_memory memory = DSTM_ZERO;
    void *(*works[THREADS])(void *) = {mover, mover, mover, counter};
    uint32_t inserted = 9;
    uint64_t all = 0;
    int i;
    IS(DSTM_OK, dstm_memory_new(&memory, THREADS, engine));
    IS(DSTM_RANGE, dstm_set_new(&memory, 0, &set));
    IS(DSTM_NULL, dstm_set_new(&memory, 1, NULL));
    IS(DSTM_OK, dstm_set_new(&memory, ROOM, &set));
    IS(DSTM_FULL, dstm_set_new(&memory, 174762, &other));
    IS(DSTM_OK, dstm_set_new(&memory, MOVED, &other));
    for (i = 0; i < THREADS; i++) IS(DSTM_OK, dstm_thread_new(&memory, &parts[i]));
    misused(&memory, &parts[0]);
    beside_marks(&parts[0]);
    IS(DSTM_OK, dstm_begin(&parts[0]));
    for (i = 0; i < MOVED; i++) IS(DSTM_OK, dstm_set_insert(&parts[0], i % 2 ? set : other, (uint64_t)i, &inserted));
    IS(DSTM_OK, dstm_commit(&parts[0]));
    run_all(THREADS, parts, works);
    IS(DSTM_OK, dstm_atomically(&parts[0], count_both, &all));
    for (i = 0; i < THREADS; i++) IS(DSTM_OK, dstm_thread_free(&parts[i]));
    IS(DSTM_OK, dstm_memory_free(&memory));
    printf("%s: %llu in two sets\n", engines[engine], (unsigned long long)all);
}

int main(int count, char **words) { return for_engines(count, words, test); }
