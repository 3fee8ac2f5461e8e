/* Ordered maps: calls by chance beside a plain table; and three threads that move keys between two maps, beside one that
   reads both in order, so that each key is in one of them, and the sum of the values stays. */
#include "common.h"
#include <string.h>

#define ROOM 16
#define KEYS 24 /* more than there is room for */
#define MOVED 12
#define EACH 400
#define THREADS 4
static dstm_thread parts[THREADS];
static dstm_ordered map, other;

/* The least key and the greatest one, keys side by side, and keys of which each is the double of the one before. */
static uint64_t key_of(int n) {
    return n == KEYS - 1 ? UINT64_MAX : n < 9 ? (uint64_t)n : (uint64_t)1 << 4 * (n - 8);
}

struct row { int there; uint64_t low, high; };

/* The first row that is there, from this one on: upwards or downwards. */
static int next_row(const struct row *rows, int n, int by) {
    while (n >= 0 && n < KEYS && !rows[n].there) n += by;
    return n >= 0 && n < KEYS ? n : -1;
}

/* What was told is this row, or nothing where there is none. */
static void is_row(const struct row *rows, int n, uint32_t there, uint64_t key, uint64_t low, uint64_t high) {
    IS(n >= 0, there);
    IS(1, key == (there ? key_of(n) : 6) && low == (there ? rows[n].low : 7) && high == (there ? rows[n].high : 8));
}

static void put_one(dstm_thread *me, struct row *rows, int n, uint64_t low, uint64_t high) {
    uint64_t had_low = 7, had_high = 8;
    uint32_t placed = 9;
    int k, count = 0, had = rows[n].there, full;
    for (k = 0; k < KEYS; k++) count += rows[k].there;
    full = !had && count == ROOM;
    IS(DSTM_OK, dstm_ordered_put(me, map, key_of(n), low, high, &placed, &had_low, &had_high));
    IS(had ? DSTM_INSTEAD : full ? DSTM_NO_ROOM : DSTM_NEW, placed);
    IS(1, had_low == (had ? rows[n].low : 7) && had_high == (had ? rows[n].high : 8));
    if (!full) rows[n].there = 1, rows[n].low = low, rows[n].high = high;
}

static void tell_one(dstm_thread *me, struct row *rows, int n, int out) {
    uint64_t low = 7, high = 8;
    uint32_t there = 9, contained = 9;
    IS(DSTM_OK, dstm_ordered_contains(me, map, key_of(n), &contained));
    if (out) IS(DSTM_OK, dstm_ordered_remove(me, map, key_of(n), &there, &low, &high));
    else IS(DSTM_OK, dstm_ordered_get(me, map, key_of(n), &there, &low, &high));
    IS(contained, there);
    is_row(rows, rows[n].there ? n : -1, there, there ? key_of(n) : 6, low, high);
    if (out) rows[n].there = 0;
}

static void tell_by_order(dstm_thread *me, struct row *rows, int n, int what) {
    uint64_t key = 6, low = 7, high = 8;
    uint32_t there = 9;
    int up = what % 2, found = next_row(rows, what < 4 ? (up ? 0 : KEYS - 1) : n + (up ? 1 : -1), up ? 1 : -1);
    switch (what) {
    case 0: IS(DSTM_OK, dstm_ordered_last(me, map, &there, &key, &low, &high)); break;
    case 1: IS(DSTM_OK, dstm_ordered_first(me, map, &there, &key, &low, &high)); break;
    case 2: IS(DSTM_OK, dstm_ordered_pop_last(me, map, &there, &key, &low, &high)); break;
    case 3: IS(DSTM_OK, dstm_ordered_pop_first(me, map, &there, &key, &low, &high)); break;
    case 4: IS(DSTM_OK, dstm_ordered_next_below(me, map, key_of(n), &there, &key, &low, &high)); break;
    default: IS(DSTM_OK, dstm_ordered_next_above(me, map, key_of(n), &there, &key, &low, &high)); break;
    }
    is_row(rows, found, there, key, low, high);
    if (found >= 0 && what / 2 == 1) rows[found].there = 0;
}

static void scan(dstm_thread *me, const struct row *rows, int n, uint32_t most) {
    dstm_entry found[KEYS];
    uint32_t count = 99, k;
    IS(DSTM_OK, dstm_ordered_scan(me, map, key_of(n), most, found, &count));
    for (k = 0; k < count; k++, n++) {
        n = next_row(rows, n, 1);
        is_row(rows, n, 1, found[k].key, found[k].low, found[k].high);
    }
    IS(1, count == most || next_row(rows, n, 1) < 0);
}

/* Calls by chance beside a plain table. A transaction of several is given up now and then. */
static void beside_a_table(dstm_thread *me) {
    static struct row rows[KEYS], trial[KEYS];
    uint64_t seed = 1, low, length = 0;
    int round, calls, n, count;
    memset(rows, 0, sizeof rows);
    for (round = 0; round < 2000; round++) {
        memcpy(trial, rows, sizeof rows);
        IS(DSTM_OK, dstm_begin(me));
        for (calls = (int)(chance(&seed) % 12); calls; calls--) {
            n = (int)(chance(&seed) % KEYS), low = chance(&seed);
            if (low % 4 == 0) tell_one(me, trial, n, low % 8 == 0);
            else if (low % 4 == 1) tell_by_order(me, trial, n, (int)(chance(&seed) % 6));
            else put_one(me, trial, n, low, chance(&seed));
        }
        scan(me, trial, (int)(chance(&seed) % KEYS), chance(&seed) % KEYS);
        for (n = count = 0; n < KEYS; n++) count += trial[n].there;
        IS(DSTM_OK, dstm_ordered_len(me, map, &length));
        IS(count, length);
        if (chance(&seed) % 4 == 0) {
            IS(DSTM_OK, dstm_abort(me));
            continue;
        }
        scan(me, trial, 0, KEYS);
        IS(DSTM_OK, dstm_commit(me));
        memcpy(rows, trial, sizeof rows);
    }
    IS(DSTM_OK, dstm_begin(me));
    while (next_row(rows, 0, 1) >= 0) tell_by_order(me, rows, 0, 3);
    tell_by_order(me, rows, 0, 2);
    IS(DSTM_OK, dstm_commit(me));
}

/* What cannot be, by the code that it has. */
static void misused(dstm_memory *memory, dstm_thread *me) {
    dstm_ordered made = {0, 0}, wide = {map.first, 174763}, far = {map.first + 1000, ROOM}, none = {map.first, 0};
    dstm_entry found[1];
    uint64_t key = 6, low = 7, high = 8;
    uint32_t there = 9;
    IS(DSTM_BUSY, dstm_ordered_new(memory, 4, &made));
    IS(DSTM_IDLE, dstm_ordered_first(me, map, &there, &key, &low, &high));
    IS(DSTM_OK, dstm_begin(me));
    IS(DSTM_NULL, dstm_ordered_first(me, map, &there, &key, &key, &high));
    IS(DSTM_NULL, dstm_ordered_next_above(me, map, 1, NULL, &key, &low, &high));
    IS(DSTM_NULL, dstm_ordered_scan(me, map, 1, 1, NULL, &there));
    IS(DSTM_RANGE, dstm_ordered_pop_last(me, none, &there, &key, &low, &high));
    IS(DSTM_RANGE, dstm_ordered_scan(me, wide, 0, 1, found, &there));
    IS(DSTM_FOREIGN, dstm_ordered_scan(me, far, 1, 1, found, &there));
    IS(DSTM_OK, dstm_abort(me));
    IS(1, there == 9 && key == 6 && low == 7 && high == 8);
}

/* Moves the first key above this one to the map in which it is not, by way of its end or by its name. */
static dstm_code move(dstm_thread *me, void *with) {
    uint64_t bound = *(const uint64_t *)with, key = 0, low = 0, high = 0, first = 0;
    uint32_t there = 0, placed = 9;
    dstm_ordered from = bound % 2 ? map : other, to = bound % 2 ? other : map;
    dstm_code code = dstm_ordered_first(me, from, &there, &first, &low, &high);
    if (!code && there && first > bound) code = dstm_ordered_pop_first(me, from, &there, &key, &low, &high);
    else if (!code && there) {
        code = dstm_ordered_next_above(me, from, bound, &there, &key, &low, &high);
        if (!code && there) code = dstm_ordered_remove(me, from, key, &there, &low, &high);
    }
    if (code || !there) return code;
    code = dstm_ordered_put_u64(me, to, key, low, &placed);
    if (!code) IS(DSTM_NEW, placed);
    return code;
}

static void *mover(void *arg) {
    dstm_thread *me = arg;
    uint64_t seed = (uint64_t)(me - parts) + 1, bound;
    int i;
    for (i = 0; i < EACH; i++) {
        bound = chance(&seed) % MOVED;
        IS(DSTM_OK, dstm_atomically(me, move, &bound));
    }
    return NULL;
}

/* Both maps together have each key once, in order. */
static dstm_code read_both(dstm_thread *me, void *with) {
    dstm_entry found[2][MOVED];
    uint32_t counts[2] = {0, 0}, at[2] = {0, 0};
    uint64_t *sum = with, key;
    dstm_code code = dstm_ordered_scan(me, map, 0, MOVED, found[0], &counts[0]);
    if (!code) code = dstm_ordered_scan(me, other, 0, MOVED, found[1], &counts[1]);
    if (code) return code;
    IS(MOVED, counts[0] + counts[1]);
    for (*sum = key = 0; key < MOVED; key++) {
        int of = at[0] == counts[0] || (at[1] < counts[1] && found[1][at[1]].key == key + 1);
        IS(key + 1, found[of][at[of]].key);
        *sum += found[of][at[of]++].low;
    }
    return DSTM_OK;
}

static void *reader(void *arg) {
    uint64_t sum = 0;
    int i;
    for (i = 0; i < EACH / 5; i++) {
        IS(DSTM_OK, dstm_atomically(arg, read_both, &sum));
        IS(100 * MOVED, sum);
    }
    return NULL;
}

static void test(dstm_engine engine) {
    dstm_memory memory = DSTM_ZERO;
    void *(*works[THREADS])(void *) = {mover, mover, mover, reader};
    uint64_t sum = 0;
    uint32_t placed = 9;
    int i;
    IS(DSTM_OK, dstm_memory_new(&memory, THREADS, engine));
    IS(DSTM_RANGE, dstm_ordered_new(&memory, 0, &map));
    IS(DSTM_RANGE, dstm_ordered_new(&memory, 174763, &map));
    IS(DSTM_NULL, dstm_ordered_new(&memory, 1, NULL));
    IS(DSTM_OK, dstm_ordered_new(&memory, ROOM, &map));
    IS(DSTM_FULL, dstm_ordered_new(&memory, 174762, &other));
    IS(DSTM_OK, dstm_ordered_new(&memory, 2 * MOVED, &other));
    IS(map.first + 3 * ROOM + 1, other.first);
    for (i = 0; i < THREADS; i++) IS(DSTM_OK, dstm_thread_new(&memory, &parts[i]));
    misused(&memory, &parts[0]);
    beside_a_table(&parts[0]);
    IS(DSTM_OK, dstm_begin(&parts[0]));
    for (i = 1; i <= MOVED; i++)
        IS(DSTM_OK, dstm_ordered_put_u64(&parts[0], i % 2 ? map : other, (uint64_t)i, 100, &placed));
    IS(DSTM_OK, dstm_commit(&parts[0]));
    run_all(THREADS, parts, works);
    IS(DSTM_OK, dstm_atomically(&parts[0], read_both, &sum));
    for (i = 0; i < THREADS; i++) IS(DSTM_OK, dstm_thread_free(&parts[i]));
    IS(DSTM_OK, dstm_memory_free(&memory));
    printf("%s: %llu in two ordered maps\n", engines[engine], (unsigned long long)sum);
}

int main(int count, char **words) { return for_engines(count, words, test); }
