/* Parts that come and go: more than can be out at once, and more than a table gives out; values that are read back
   and set anew between runs; and a part that goes on when its memory is freed. */
#include "common.h"

static dstm_cell counter;

static dstm_code add(dstm_thread *me, void *with) {
    uint64_t low = 0, high = 0;
    dstm_code code = dstm_get(me, counter, &low, &high);
    (void)with;
    return code ? code : dstm_set(me, counter, low + 1, high + 2);
}

static void test(dstm_engine engine) {
    dstm_memory memory = DSTM_ZERO;
    dstm_thread a = DSTM_ZERO, b = DSTM_ZERO, c = DSTM_ZERO;
    dstm_cell more = 0;
    uint64_t low = 0, high = 0, all = 0, cells = 1;
    int i;
    IS(DSTM_OK, dstm_memory_new(&memory, 2, engine));
    IS(DSTM_OK, dstm_cell_new(&memory, 0, 0, &counter));
    /* one that came and went takes nothing from those behind it */
    IS(DSTM_OK, dstm_thread_new(&memory, &a));
    IS(DSTM_OK, dstm_thread_free(&a));
    for (i = 0; i < 40; i++) {
        IS(DSTM_OK, dstm_thread_new(&memory, &a));
        IS(DSTM_OK, dstm_thread_new(&memory, &b));
        IS(DSTM_FULL, dstm_thread_new(&memory, &c));
        IS(DSTM_OK, dstm_atomically(&a, add, NULL));
        IS(DSTM_OK, dstm_atomically(&b, add, NULL));
        /* one that is freed in the middle of a transaction keeps nobody from committing */
        IS(DSTM_OK, dstm_begin(&a));
        IS(DSTM_OK, dstm_set(&a, counter, 77, 77));
        IS(DSTM_OK, dstm_thread_free(&a));
        IS(DSTM_OK, dstm_atomically(&b, add, NULL));
        all += 3;
        IS(DSTM_OK, dstm_thread_free(&b));
        if (i % 8 == 0) {
            IS(DSTM_OK, dstm_peek(&memory, counter, &low, &high));
            IS(all, low);
            IS(2 * all, high);
            IS(DSTM_OK, dstm_cell_new(&memory, 10 + (uint64_t)i, 3, &more));
            IS(cells, more);
            cells++;
            IS(DSTM_OK, dstm_peek(&memory, more, &low, &high));
            IS(10 + i, low);
            IS(3, high);
        }
    }
    /* one stays out: then as many are given out as a table has, and no more */
    IS(DSTM_OK, dstm_peek(&memory, counter, &low, &high));
    IS(DSTM_OK, dstm_thread_new(&memory, &a));
    for (i = 0; i < 64 && !dstm_thread_new(&memory, &b); i++) IS(DSTM_OK, dstm_thread_free(&b));
    IS(engine == DSTM_TL2 ? 62 : 1, i);
    IS(DSTM_FULL, dstm_thread_new(&memory, &b));
    IS(DSTM_OK, dstm_thread_free(&a));
    IS(DSTM_OK, dstm_thread_new(&memory, &b));
    IS(DSTM_OK, dstm_memory_free(&memory));
    IS(DSTM_OK, dstm_atomically(&b, add, NULL));
    IS(DSTM_OK, dstm_begin(&b));
    IS(DSTM_OK, dstm_get(&b, counter, &low, &high));
    IS(all + 1, low);
    IS(DSTM_OK, dstm_get(&b, 1, &low, &high));
    IS(10, low);
    IS(DSTM_OK, dstm_thread_free(&b));
    printf("%s: %llu by parts that came and went\n", engines[engine], (unsigned long long)all);
}

int main(int count, char **words) { return for_engines(count, words, test); }
