/* The programs of the pages: one thread of several adds to a counter, by a function and call by call. */
#include "common.h"

static dstm_code add_one(dstm_thread *me, void *counter) {
    uint64_t n;
    dstm_code code = dstm_get_u64(me, *(dstm_cell *)counter, &n);
    return code ? code : dstm_set_u64(me, *(dstm_cell *)counter, n + 1);
}

static void by_a_function(void) {
    uint64_t found = 0;
    dstm_memory memory = DSTM_ZERO;
    dstm_thread me = DSTM_ZERO;
    dstm_cell counter;

    dstm_memory_new(&memory, 4, DSTM_TL2);             /* at most 4 threads at once */
    dstm_cell_new(&memory, 0, 0, &counter);
    dstm_thread_new(&memory, &me);                     /* a part for each thread */
    dstm_atomically(&me, add_one, &counter);

    IS(DSTM_OK, dstm_thread_free(&me));
    IS(DSTM_OK, dstm_peek_u64(&memory, counter, &found));
    IS(1, found);
    IS(DSTM_OK, dstm_memory_free(&memory));
}

static void call_by_call(void) {
    uint64_t found = 0;
    dstm_memory memory = DSTM_ZERO;
    dstm_thread me = DSTM_ZERO;
    dstm_cell counter;
    uint64_t n;
    dstm_code code;

    dstm_memory_new(&memory, 4, DSTM_TL2);             // at most 4 threads at once
    dstm_cell_new(&memory, 0, 0, &counter);
    dstm_thread_new(&memory, &me);                     // a part for each thread
    do {
        code = dstm_begin(&me);
        if (!code) code = dstm_get_u64(&me, counter, &n);
        if (!code) code = dstm_set_u64(&me, counter, n + 1);
        if (!code) code = dstm_commit(&me);
    } while (code == DSTM_AGAIN);

    IS(DSTM_OK, code);
    IS(DSTM_OK, dstm_thread_free(&me));
    IS(DSTM_OK, dstm_peek_u64(&memory, counter, &found));
    IS(1, found);
    IS(DSTM_OK, dstm_memory_free(&memory));
}

static void test(dstm_engine engine) {
    if (engine == DSTM_TL2) {
        by_a_function();
        call_by_call();
        printf("%s: 2\n", engines[engine]);
    }
}

int main(int count, char **words) { return for_engines(count, words, test); }
