/* Allocation is refused, at each call in turn, once or from then on: the call of the library that needs it answers
   DSTM_MEMORY, changes nothing and goes through when it is made again; and at the end no block is left. It is linked
   with -Wl,--wrap=malloc,--wrap=realloc,--wrap=free. */
#include "common.h"

#define CELLS 5
#define KEYS 3
static dstm_memory memory = DSTM_ZERO;
static dstm_thread me = DSTM_ZERO, other = DSTM_ZERO;
static dstm_cell cells[CELLS];
static uint64_t now[CELLS]; /* what they hold, as the transaction under way sees them */
static int made;            /* so many cells */
static int before;          /* and so many of the map before them */
static dstm_map map;
static enum { NO_PARTS, PARTS, TRANSACTION } is;
static long calls, refused_at, refused, told, blocks;
static int goes_on, checks;

void *__real_malloc(size_t size);
void *__real_realloc(void *had, size_t size);
void __real_free(void *it);
void *__wrap_malloc(size_t size);
void *__wrap_realloc(void *had, size_t size);
void __wrap_free(void *it);

static int refuses(void) {
    if (checks) return 0;
    calls++;
    if (!refused_at || (goes_on ? calls < refused_at : calls != refused_at)) return 0;
    refused++;
    return 1;
}

void *__wrap_malloc(size_t size) {
    void *it = refuses() ? NULL : __real_malloc(size);
    if (it) blocks++;
    return it;
}

void *__wrap_realloc(void *had, size_t size) {
    void *it = refuses() ? NULL : __real_realloc(had, size);
    if (it && !had) blocks++;
    return it;
}

void __wrap_free(void *it) {
    if (it) blocks--;
    __real_free(it);
}

/* Each cell holds what it should. Nothing is refused meanwhile. */
static void check(void) {
    uint64_t low = 0, high = 0;
    int i;
    checks = 1;
    if (is == PARTS) IS(DSTM_OK, dstm_begin(&me));
    for (i = 0; i < made; i++) {
        IS(DSTM_OK, is == NO_PARTS ? dstm_peek(&memory, cells[i], &low, &high) : dstm_get(&me, cells[i], &low, &high));
        IS(now[i], low);
        IS(now[i] + 1, high);
    }
    if (is == PARTS) IS(DSTM_OK, dstm_commit(&me));
    checks = 0;
}

/* A call that may be refused memory. */
#define DO(call) \
    do { \
        dstm_code did = (call); \
        if (did == DSTM_MEMORY) { \
            told++; \
            if (goes_on) IS(DSTM_MEMORY, call); \
            refused_at = 0; \
            check(); \
            did = (call); \
        } \
        IS(DSTM_OK, did); \
    } while (0)

static void put(int cell, uint64_t n) {
    DO(dstm_set(&me, cells[cell], n, n + 1));
    now[cell] = n;
}

static void make_cell(uint64_t n) {
    DO(dstm_cell_new(&memory, n, n + 1, &cells[made]));
    IS(before + made, cells[made]);
    now[made++] = n;
}

static void transactions(uint64_t n) {
    uint64_t mark = 0, had, length = 0;
    uint32_t placed = 9;
    dstm_code code;
    int i;
    IS(DSTM_OK, dstm_begin(&me));
    is = TRANSACTION;
    put(0, n);
    put(1, n + 10);
    IS(DSTM_OK, dstm_mark(&me, &mark));
    had = now[2];
    for (i = 0; i < 20; i++) put(2, n + 20 + (uint64_t)i);
    for (i = 0; i < KEYS; i++) DO(dstm_map_put_u64(&me, map, n + (uint64_t)i, n, &placed));
    IS(DSTM_NEW, placed);
    check();
    IS(DSTM_OK, dstm_undo_to(&me, mark));
    now[2] = had;
    check();
    IS(DSTM_OK, dstm_map_len(&me, map, &length));
    IS(n / 1000 - 1, length);
    DO(dstm_map_put_u64(&me, map, n, n, &placed));
    IS(DSTM_NEW, placed);
    IS(DSTM_OK, dstm_commit(&me));
    is = PARTS;
    check();
    /* one that is given up */
    IS(DSTM_OK, dstm_begin(&me));
    is = TRANSACTION;
    had = now[1];
    put(1, 7);
    IS(DSTM_OK, dstm_abort(&me));
    now[1] = had;
    is = PARTS;
    check();
    /* one that looks, and is given up too */
    IS(DSTM_OK, dstm_begin(&me));
    is = TRANSACTION;
    put(1, 8);
    code = dstm_look(&me);
    if (code == DSTM_MEMORY) {
        told++;
        refused_at = 0;
    } else {
        IS(DSTM_OK, code);
    }
    IS(DSTM_OK, dstm_abort(&me));
    now[1] = had;
    is = PARTS;
    check();
}

static void all(dstm_engine engine) {
    int round, i;
    made = 0;
    is = NO_PARTS;
    DO(dstm_memory_new(&memory, 2, engine));
    DO(dstm_map_new(&memory, KEYS + 1, &map));
    before = 2 * (KEYS + 1);
    make_cell(100);
    make_cell(200);
    make_cell(300);
    for (round = 0; round < (engine == DSTM_TL2 ? 2 : 1); round++) {
        DO(dstm_thread_new(&memory, &me));
        is = PARTS;
        DO(dstm_thread_new(&memory, &other));
        IS(DSTM_OK, dstm_thread_free(&other));
        transactions(1000 * (uint64_t)(round + 1));
        IS(DSTM_OK, dstm_thread_free(&me));
        is = NO_PARTS;
        /* the values come back: where a cell is made, and where a cell is looked at */
        if (round) make_cell(400);
        else DO(dstm_peek(&memory, cells[0], &now[0], &(uint64_t){0}));
        check();
    }
    make_cell(500);
    /* more parts than one table gives out */
    for (i = 0; i < (engine == DSTM_TL2 ? 70 : 3); i++) {
        DO(dstm_thread_new(&memory, &me));
        is = PARTS;
        IS(DSTM_OK, dstm_thread_free(&me));
        is = NO_PARTS;
    }
    check();
    IS(DSTM_OK, dstm_memory_free(&memory));
    IS(0, blocks);
}

static void test(dstm_engine engine) {
    long most = 0, codes = 0;
    for (goes_on = 0; goes_on < 2; goes_on++) {
        long n = 0;
        do {
            calls = refused = told = 0;
            refused_at = ++n;
            all(engine);
            IS(refused > 0, told > 0);
            codes += told;
        } while (refused);
        most = n - 1;
    }
    printf("%s: each of %ld allocations refused, %ld codes\n", engines[engine], most, codes);
}

int main(int count, char **words) { return for_engines(count, words, test); }
