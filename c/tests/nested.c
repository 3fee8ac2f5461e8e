/* A transaction on one memory within one on another: where the outer one is lost, the inner one ends. */
#include "common.h"

static dstm_cell x, y, z;
static dstm_thread outer, other, inner;

static dstm_code add_to_both(dstm_thread *me, void *with) {
    uint64_t n = 0;
    dstm_code code = dstm_get_u64(me, x, &n);
    (void)with;
    if (!code) code = dstm_set_u64(me, x, n + 1);
    return code ? code : dstm_set_u64(me, y, n + 1);
}

/* It makes a transaction of the second memory, and reads the first one by the transaction around it. */
static dstm_code within(dstm_thread *me, void *with) {
    uint64_t n = 0;
    dstm_code code = dstm_set_u64(me, z, 7);
    (void)with;
    return code ? code : dstm_get_u64(&outer, y, &n);
}

static dstm_code around(dstm_thread *me, void *with) {
    int *calls = with;
    uint64_t n = 0;
    dstm_code code = dstm_get_u64(me, x, &n);
    if (code) return code;
    if ((*calls)++) return dstm_atomically(&inner, within, NULL);
    IS(DSTM_OK, dstm_atomically(&other, add_to_both, NULL));
    IS(DSTM_ELSEWHERE, dstm_atomically(&inner, within, NULL));
    return DSTM_AGAIN; /* this one is lost, indeed */
}

static void test(dstm_engine engine) {
    dstm_memory first = DSTM_ZERO, second = DSTM_ZERO;
    uint64_t n = 0;
    int calls = 0;
    IS(DSTM_OK, dstm_memory_new(&first, 2, engine));
    IS(DSTM_OK, dstm_memory_new(&second, 1, engine));
    IS(DSTM_OK, dstm_cell_new_u64(&first, 0, &x));
    IS(DSTM_OK, dstm_cell_new_u64(&first, 0, &y));
    IS(DSTM_OK, dstm_cell_new_u64(&second, 0, &z));
    IS(DSTM_OK, dstm_thread_new(&first, &outer));
    IS(DSTM_OK, dstm_thread_new(&first, &other));
    IS(DSTM_OK, dstm_thread_new(&second, &inner));
    IS(DSTM_OK, dstm_atomically(&outer, around, &calls));
    IS(2, calls);
    IS(DSTM_OK, dstm_thread_free(&outer));
    IS(DSTM_OK, dstm_thread_free(&other));
    IS(DSTM_OK, dstm_thread_free(&inner));
    IS(DSTM_OK, dstm_peek_u64(&second, z, &n));
    IS(7, n);
    IS(DSTM_OK, dstm_memory_free(&first));
    IS(DSTM_OK, dstm_memory_free(&second));
    printf("%s: a transaction within one that is lost ends\n", engines[engine]);
}

int main(int count, char **words) { return for_engines(count, words, test); }
