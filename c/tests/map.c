/* Hash maps: calls by chance beside a plain table; and four threads that move keys between two maps, so that each key is
   in one of them, and the sum of the values stays. */
#include "common.h"
#include <string.h>

#define ROOM 16
#define KEYS 24 /* more than there is room for */
#define MOVED 12
#define EACH 500
#define THREADS 4
static dstm_thread parts[THREADS];
static dstm_map map, other;

/* Keys whose places are near one another, and keys that are far. */
static uint64_t key_of(int n) { return n % 2 ? (uint64_t)n : (uint64_t)n << 40; }

struct row { int there; uint64_t low, high; };

static int rows_of(const struct row *rows) {
    int n, count = 0;
    for (n = 0; n < KEYS; n++) count += rows[n].there;
    return count;
}

static void put_one(dstm_thread *me, struct row *rows, int n, uint64_t low, uint64_t high) {
    uint64_t had_low = 7, had_high = 8;
    uint32_t placed = 9;
    int had = rows[n].there, full = !had && rows_of(rows) == ROOM;
    IS(DSTM_OK, dstm_map_put(me, map, key_of(n), low, high, &placed, &had_low, &had_high));
    IS(had ? DSTM_INSTEAD : full ? DSTM_NO_ROOM : DSTM_NEW, placed);
    IS(1, had_low == (had ? rows[n].low : 7) && had_high == (had ? rows[n].high : 8));
    if (!full) rows[n].there = 1, rows[n].low = low, rows[n].high = high;
}

static void tell_one(dstm_thread *me, struct row *rows, int n, int out) {
    uint64_t low = 7, high = 8;
    uint32_t there = 9, contained = 9;
    IS(DSTM_OK, dstm_map_contains(me, map, key_of(n), &contained));
    if (out) IS(DSTM_OK, dstm_map_remove(me, map, key_of(n), &there, &low, &high));
    else IS(DSTM_OK, dstm_map_get(me, map, key_of(n), &there, &low, &high));
    IS(1, (int)there == rows[n].there && contained == there);
    IS(1, low == (there ? rows[n].low : 7) && high == (there ? rows[n].high : 8));
    if (out) rows[n].there = 0;
}

/* Calls by chance beside a plain table. A transaction of several is given up now and then, or undone to a mark. */
static void beside_a_table(dstm_thread *me) {
    static struct row rows[KEYS], trial[KEYS], marked[KEYS];
    uint64_t seed = 1, low = 0, length = 0, mark = 0;
    int round, calls, n, is_marked;
    memset(rows, 0, sizeof rows);
    for (round = 0; round < 2000; round++) {
        memcpy(trial, rows, sizeof rows);
        is_marked = 0;
        IS(DSTM_OK, dstm_begin(me));
        for (calls = (int)(chance(&seed) % 12); calls; calls--) {
            n = (int)(chance(&seed) % KEYS), low = chance(&seed);
            if (calls == 4) {
                IS(DSTM_OK, dstm_mark(me, &mark));
                memcpy(marked, trial, sizeof trial);
                is_marked = 1;
            }
            if (low % 4 < 2) put_one(me, trial, n, low, chance(&seed));
            else tell_one(me, trial, n, low % 4 == 2);
        }
        IS(DSTM_OK, dstm_map_len(me, map, &length));
        IS(rows_of(trial), length);
        if (is_marked && low % 2) {
            IS(DSTM_OK, dstm_undo_to(me, mark));
            memcpy(trial, marked, sizeof trial);
        }
        if (chance(&seed) % 4 == 0) {
            IS(DSTM_OK, dstm_abort(me));
            continue;
        }
        for (n = 0; n < KEYS; n++) tell_one(me, trial, n, 0);
        IS(DSTM_OK, dstm_commit(me));
        memcpy(rows, trial, sizeof rows);
    }
    IS(DSTM_OK, dstm_begin(me));
    for (n = 0; n < KEYS; n++) tell_one(me, rows, n, 1);
    IS(DSTM_OK, dstm_commit(me));
}

/* What cannot be, by the code that it has. */
static void misused(dstm_memory *memory, dstm_thread *me) {
    dstm_map made = {0, 0}, wide = {map.first + 1, 262144}, far = {map.first + 1000, ROOM}, none = {map.first, 0};
    uint64_t low = 7, high = 8, length = 6;
    uint32_t there = 9;
    IS(DSTM_BUSY, dstm_map_new(memory, 4, &made));
    IS(DSTM_IDLE, dstm_map_get_u64(me, map, 1, &there, &low));
    IS(DSTM_OK, dstm_begin(me));
    IS(DSTM_NULL, dstm_map_contains(me, map, 1, NULL));
    IS(DSTM_NULL, dstm_map_len(me, map, NULL));
    IS(DSTM_NULL, dstm_map_remove(me, map, 1, &there, &low, &low));
    IS(DSTM_NULL, dstm_map_put(me, map, 1, 1, 1, &there, NULL, &high));
    IS(DSTM_NULL, dstm_map_put_u64(NULL, map, 1, 1, &there));
    IS(DSTM_RANGE, dstm_map_get(me, none, 1, &there, &low, &high));
    IS(DSTM_RANGE, dstm_map_put_u64(me, wide, 1, 1, &there));
    IS(DSTM_FOREIGN, dstm_map_remove_u64(me, far, 1, &there, &low));
    IS(DSTM_OK, dstm_abort(me));
    IS(DSTM_OK, dstm_begin(me));
    IS(DSTM_FOREIGN, dstm_map_len(me, far, &length));
    IS(DSTM_OK, dstm_abort(me));
    IS(1, there == 9 && low == 7 && high == 8 && length == 6 && made.capacity == 0);
}

struct step { uint64_t key, more; };

/* Moves a key to the map in which it is not, with one more than it has, and takes that one from another key. */
static dstm_code move(dstm_thread *me, void *with) {
    const struct step *step = with;
    dstm_map from = map, to = other, next = map;
    uint64_t value = 0, has = 0, high = 0;
    uint32_t there = 0, placed = 9;
    dstm_code code = dstm_map_remove_u64(me, from, step->key, &there, &value);
    if (!code && !there) {
        from = other, to = map;
        code = dstm_map_remove_u64(me, from, step->key, &there, &value);
    }
    if (!code) IS(1, there);
    if (!code) code = dstm_map_put(me, to, step->key, value + 1, 0, &placed, &has, &high);
    if (!code) IS(DSTM_NEW, placed);
    if (!code) code = dstm_map_get_u64(me, next, step->more, &there, &has);
    if (!code && !there) {
        next = other;
        code = dstm_map_get_u64(me, next, step->more, &there, &has);
    }
    if (!code) IS(1, there);
    if (!code) code = dstm_map_put_u64(me, next, step->more, has - 1, &placed);
    if (!code) IS(DSTM_INSTEAD, placed);
    return code;
}

static void *mover(void *arg) {
    dstm_thread *me = arg;
    uint64_t seed = (uint64_t)(me - parts) + 1;
    struct step step;
    int i;
    for (i = 0; i < EACH; i++) {
        step.key = chance(&seed) % MOVED, step.more = chance(&seed) % MOVED;
        IS(DSTM_OK, dstm_atomically(me, move, &step));
    }
    return NULL;
}

/* Each key is in one of the maps, and the sum is 100 for each. */
static dstm_code add_up(dstm_thread *me, void *with) {
    uint64_t *all = with, key, value;
    uint32_t here = 0, there = 0;
    dstm_code code = DSTM_OK;
    *all = 0;
    for (key = 0; !code && key < MOVED; key++) {
        value = 0;
        code = dstm_map_get_u64(me, map, key, &here, &value);
        if (!code) code = dstm_map_get_u64(me, other, key, &there, &value);
        if (!code) IS(1, here + there);
        *all += value;
    }
    return code;
}

static void *auditor(void *arg) {
    uint64_t all = 0;
    int i;
    for (i = 0; i < EACH / 5; i++) {
        IS(DSTM_OK, dstm_atomically(arg, add_up, &all));
        IS(100 * MOVED, all);
    }
    return NULL;
}

static void test(dstm_engine engine) {
    dstm_memory memory = DSTM_ZERO;
    void *(*works[THREADS])(void *) = {mover, mover, mover, auditor};
    uint64_t all = 0;
    uint32_t placed = 9;
    int i;
    IS(DSTM_OK, dstm_memory_new(&memory, THREADS, engine));
    IS(DSTM_RANGE, dstm_map_new(&memory, 0, &map));
    IS(DSTM_RANGE, dstm_map_new(&memory, 262145, &map));
    IS(DSTM_NULL, dstm_map_new(&memory, 1, NULL));
    IS(DSTM_OK, dstm_map_new(&memory, ROOM, &map));
    IS(DSTM_FULL, dstm_map_new(&memory, 262144, &other));
    IS(DSTM_OK, dstm_map_new(&memory, 2 * MOVED, &other));
    IS(map.first + 2 * ROOM, other.first);
    for (i = 0; i < THREADS; i++) IS(DSTM_OK, dstm_thread_new(&memory, &parts[i]));
    misused(&memory, &parts[0]);
    beside_a_table(&parts[0]);
    IS(DSTM_OK, dstm_begin(&parts[0]));
    for (i = 0; i < MOVED; i++) IS(DSTM_OK, dstm_map_put_u64(&parts[0], i % 2 ? map : other, (uint64_t)i, 100, &placed));
    IS(DSTM_OK, dstm_commit(&parts[0]));
    run_all(THREADS, parts, works);
    IS(DSTM_OK, dstm_atomically(&parts[0], add_up, &all));
    for (i = 0; i < THREADS; i++) IS(DSTM_OK, dstm_thread_free(&parts[i]));
    IS(DSTM_OK, dstm_memory_free(&memory));
    printf("%s: %llu in two maps\n", engines[engine], (unsigned long long)all);
}

int main(int count, char **words) { return for_engines(count, words, test); }
