/* Marks, what is undone, one body or else another, and looks. */
#include "common.h"

static dstm_cell a, b;

static dstm_code from_a(dstm_thread *me, void *with) {
    uint64_t n = 0;
    dstm_code code = dstm_get_u64(me, a, &n);
    (void)with;
    if (code) return code;
    if ((code = dstm_set_u64(me, a, n - 1))) return code; /* undone, where it retries */
    return n ? DSTM_OK : DSTM_RETRY;
}

static dstm_code from_b(dstm_thread *me, void *with) {
    uint64_t n = 0;
    dstm_code code = dstm_get_u64(me, b, &n);
    (void)with;
    if (code) return code;
    if (!n) return DSTM_RETRY;
    return dstm_set_u64(me, b, n - 1);
}

static dstm_code from_either(dstm_thread *me, void *with) { return dstm_or_else(me, from_a, from_b, with); }

static dstm_code is_not_lost(dstm_thread *me, void *with) {
    dstm_code code = dstm_set_u64(me, a, 100);
    (void)with;
    return code ? code : DSTM_AGAIN;
}

static dstm_code sum(dstm_thread *me, void *with) {
    uint64_t n = 0, m = 0, *told = with;
    dstm_code code = dstm_get_u64(me, a, &n);
    if (!code) code = dstm_get_u64(me, b, &m);
    if (!code) code = dstm_set_u64(me, a, 200); /* takes no effect */
    if (!code) *told = n + m;
    return code;
}

static void test(dstm_engine engine) {
    dstm_memory memory = DSTM_ZERO;
    dstm_thread me = DSTM_ZERO;
    uint64_t low = 0, high = 0, first = 0, second = 0, n = 0;
    IS(DSTM_OK, dstm_memory_new(&memory, 1, engine));
    IS(DSTM_OK, dstm_cell_new_u64(&memory, 1, &a));
    IS(DSTM_OK, dstm_cell_new_u64(&memory, 2, &b));
    IS(DSTM_OK, dstm_thread_new(&memory, &me));
    IS(DSTM_IDLE, dstm_mark(&me, &first));
    IS(DSTM_IDLE, dstm_undo_to(&me, 0));

    /* a mark within a mark */
    IS(DSTM_OK, dstm_begin(&me));
    IS(DSTM_OK, dstm_set(&me, a, 5, 6));
    IS(DSTM_OK, dstm_mark(&me, &first));
    IS(DSTM_OK, dstm_set(&me, a, 7, 8));
    IS(DSTM_OK, dstm_set(&me, b, 9, 9));
    IS(DSTM_OK, dstm_mark(&me, &second));
    IS(DSTM_OK, dstm_set(&me, a, 11, 12));
    IS(DSTM_RANGE, dstm_undo_to(&me, second + 2));
    IS(DSTM_OK, dstm_undo_to(&me, second));
    IS(DSTM_OK, dstm_get(&me, a, &low, &high));
    IS(7, low);
    IS(8, high);
    IS(DSTM_OK, dstm_undo_to(&me, first));
    IS(DSTM_OK, dstm_get(&me, a, &low, &high));
    IS(5, low);
    IS(6, high);
    IS(DSTM_OK, dstm_get(&me, b, &low, &high));
    IS(2, low);
    IS(0, high);
    IS(DSTM_OK, dstm_set(&me, a, 1, 0));
    IS(DSTM_OK, dstm_commit(&me));

    /* one from a, and then from b, until there is none */
    IS(DSTM_OK, dstm_atomically(&me, from_either, NULL));
    IS(DSTM_OK, dstm_atomically(&me, from_either, NULL));
    IS(DSTM_OK, dstm_atomically(&me, from_either, NULL));
    IS(DSTM_RETRY, dstm_atomically_for(&me, 100, from_either, NULL));
    IS(DSTM_ELSEWHERE, dstm_atomically(&me, is_not_lost, NULL));
    IS(DSTM_OK, dstm_begin(&me));
    IS(DSTM_OK, dstm_set_u64(&me, a, 100));
    IS(DSTM_OK, dstm_commit(&me));
    IS(DSTM_OK, dstm_view(&me, sum, &n));
    IS(100, n);
    IS(DSTM_OK, dstm_thread_free(&me));
    IS(DSTM_OK, dstm_peek_u64(&memory, a, &n));
    IS(100, n);
    IS(DSTM_OK, dstm_peek_u64(&memory, b, &n));
    IS(0, n);
    IS(DSTM_OK, dstm_memory_free(&memory));
    printf("%s: what was set behind a mark is undone\n", engines[engine]);
}

int main(int count, char **words) { return for_engines(count, words, test); }
