/* Each misuse that can be told is answered by its code, and changes nothing. */
#include "common.h"
#include <string.h>

static dstm_code nested(dstm_thread *me, void *with) { return dstm_atomically(me, nested, with); }

static dstm_code ended(dstm_thread *me, void *with) {
    (void)with;
    return dstm_commit(me);
}

static void test(dstm_engine engine) {
    dstm_memory m = DSTM_ZERO, other = DSTM_ZERO;
    dstm_thread t = DSTM_ZERO, u = DSTM_ZERO, v = DSTM_ZERO;
    dstm_cell a = 0, b = 0;
    uint64_t low = 7, high = 8, mark = 0;

    /* closed handles, and what is no handle of the kind */
    IS(DSTM_NULL, dstm_memory_new(NULL, 2, engine));
    IS(DSTM_RANGE, dstm_memory_new(&m, 0, engine));
    IS(DSTM_RANGE, dstm_memory_new(&m, 64, engine));
    IS(DSTM_RANGE, dstmc_memory_new(&m, 2, ENGINES));
    IS(DSTM_CLOSED, dstm_memory_free(&m));
    IS(DSTM_CLOSED, dstm_cell_new(&m, 1, 2, &a));
    IS(DSTM_CLOSED, dstm_peek(&m, a, &low, &high));
    IS(DSTM_CLOSED, dstm_thread_new(&m, &t));
    IS(DSTM_OK, dstm_memory_new(&m, 2, engine));
    IS(DSTM_TAKEN, dstm_memory_new(&m, 2, engine));
    IS(DSTM_NULL, dstm_cell_new(&m, 1, 2, NULL));
    IS(DSTM_OK, dstm_cell_new(&m, 1, 2, &a));
    IS(DSTM_OK, dstm_peek(&m, a, &low, &high));
    IS(1, low);
    IS(2, high);
    IS(DSTM_NULL, dstm_peek(&m, a, &low, &low));
    IS(DSTM_FOREIGN, dstm_peek(&m, 1, &low, &high));
    IS(DSTM_CLOSED, dstm_begin(&t));
    IS(DSTM_CLOSED, dstm_get(&t, a, &low, &high));
    IS(DSTM_CLOSED, dstm_set(&t, a, 1, 1));
    IS(DSTM_CLOSED, dstm_commit(&t));
    IS(DSTM_CLOSED, dstm_abort(&t));
    IS(DSTM_CLOSED, dstm_look(&t));
    IS(DSTM_CLOSED, dstm_wait(&t, 5));
    IS(DSTM_CLOSED, dstm_mark(&t, &mark));
    IS(DSTM_CLOSED, dstm_undo_to(&t, 0));
    IS(DSTM_CLOSED, dstm_atomically(&t, nested, NULL));
    IS(DSTM_CLOSED, dstmc_begin((dstm_thread *)&m));
    IS(DSTM_CLOSED, dstmc_thread_free((dstm_thread *)&m));
    IS(DSTM_NULL, dstm_thread_new(&m, (dstm_thread *)&m));
    IS(DSTM_OK, dstm_thread_new(&m, &t));
    IS(DSTM_TAKEN, dstm_thread_new(&m, &t));
    IS(DSTM_TAKEN, dstmc_memory_new((dstm_memory *)&t, 2, 0));
    IS(DSTM_CLOSED, dstmc_memory_free((dstm_memory *)&t));
    IS(DSTM_CLOSED, dstmc_cell_new((dstm_memory *)&t, 0, 0, &b));

    /* while threads have parts */
    IS(DSTM_OK, dstm_thread_new(&m, &u));
    IS(DSTM_FULL, dstm_thread_new(&m, &v));
    IS(DSTM_BUSY, dstm_cell_new(&m, 1, 2, &b));
    IS(DSTM_BUSY, dstm_peek(&m, a, &low, &high));

    /* no transaction is under way, or one is */
    IS(DSTM_IDLE, dstm_get(&t, a, &low, &high));
    IS(DSTM_IDLE, dstm_set(&t, a, 1, 1));
    IS(DSTM_IDLE, dstm_commit(&t));
    IS(DSTM_IDLE, dstm_abort(&t));
    IS(DSTM_IDLE, dstm_look(&t));
    IS(DSTM_IDLE, dstm_wait(&t, 5));
    IS(DSTM_OK, dstm_begin(&t));
    IS(DSTM_OPEN, dstm_begin(&t));
    IS(DSTM_FOREIGN, dstm_get(&t, 1, &low, &high));
    IS(DSTM_FOREIGN, dstm_set(&t, 77, 1, 1));
    IS(DSTM_NULL, dstm_get(&t, a, NULL, &high));
    IS(DSTM_NULL, dstm_mark(&t, NULL));
    IS(DSTM_OK, dstm_get(&t, a, &low, &high));
    IS(DSTM_OK, dstm_abort(&t));
    IS(DSTM_OPEN, dstm_atomically(&t, nested, NULL));
    IS(DSTM_IDLE, dstm_atomically(&t, ended, NULL));

    /* another thread's transaction comes between */
    IS(DSTM_OK, dstm_begin(&t));
    IS(DSTM_OK, dstm_get(&t, a, &low, &high));
    IS(DSTM_OK, dstm_begin(&u));
    IS(DSTM_OK, dstm_set(&u, a, 9, 9));
    IS(DSTM_OK, dstm_commit(&u));
    low = 3;
    high = 4;
    if (dstm_set(&t, a, 50, 50) == DSTM_OK) IS(DSTM_AGAIN, dstm_commit(&t));
    IS(DSTM_AGAIN, dstm_get(&t, a, &low, &high));
    IS(3, low);
    IS(4, high);
    IS(DSTM_AGAIN, dstm_set(&t, a, 1, 1));
    IS(DSTM_AGAIN, dstm_commit(&t));
    IS(DSTM_OK, dstm_begin(&t));
    IS(DSTM_OK, dstm_get(&t, a, &low, &high));
    IS(9, low);
    IS(DSTM_OK, dstm_set(&t, a, 10, 0));
    IS(DSTM_OK, dstm_get(&t, a, &low, &high));
    IS(10, low);
    IS(DSTM_OK, dstm_abort(&t));

    /* looks */
    IS(DSTM_OK, dstm_begin(&t));
    IS(DSTM_OK, dstm_get(&t, a, &low, &high));
    IS(DSTM_OK, dstm_look(&t));
    IS(DSTM_OK, dstm_look(&t));
    IS(DSTM_AGAIN, dstm_get(&t, a, &low, &high));
    IS(DSTM_AGAIN, dstm_set(&t, a, 1, 1));
    IS(DSTM_AGAIN, dstm_commit(&t));
    IS(DSTM_OK, dstm_begin(&u));
    IS(DSTM_OK, dstm_set(&u, a, 20, 20));
    IS(DSTM_OK, dstm_commit(&u));
    IS(DSTM_AGAIN, dstm_look(&t));
    IS(DSTM_AGAIN, dstm_wait(&t, 5));
    IS(DSTM_OK, dstm_begin(&t));
    IS(DSTM_OK, dstm_get(&t, a, &low, &high));
    IS(20, low);
    IS(DSTM_RETRY, dstm_wait(&t, 5));
    IS(DSTM_IDLE, dstm_look(&t));

    /* a part that is freed in the middle keeps nobody waiting */
    IS(DSTM_OK, dstm_begin(&t));
    IS(DSTM_OK, dstm_set(&t, a, 11, 0));
    IS(DSTM_OK, dstm_thread_free(&t));
    IS(DSTM_CLOSED, dstm_thread_free(&t));
    IS(DSTM_CLOSED, dstm_commit(&t));
    IS(DSTM_OK, dstm_begin(&u));
    IS(DSTM_OK, dstm_get(&u, a, &low, &high));
    IS(20, low);
    IS(DSTM_OK, dstm_commit(&u));

    if (engine != DSTM_TL2) {
        /* spent after 65,536 attempts */
        dstm_code code;
        while (!(code = dstm_begin(&u))) IS(DSTM_OK, dstm_commit(&u));
        IS(DSTM_SPENT, code);
        IS(DSTM_SPENT, dstm_begin(&u));
        IS(DSTM_SPENT, dstm_atomically(&u, nested, NULL));
        IS(DSTM_IDLE, dstm_commit(&u));
        IS(DSTM_FULL, dstm_thread_new(&m, &t)); /* two parts were given out, and one is with us still */
    }
    IS(DSTM_OK, dstm_thread_free(&u));
    IS(DSTM_OK, dstm_thread_new(&m, &t));
    IS(DSTM_OK, dstm_begin(&t));
    IS(DSTM_OK, dstm_get(&t, a, &low, &high));
    IS(20, low);
    IS(20, high);
    IS(DSTM_OK, dstm_set(&t, a, 12, 13));
    IS(DSTM_OK, dstm_commit(&t));
    IS(DSTM_OK, dstm_memory_free(&m));
    IS(DSTM_CLOSED, dstm_memory_free(&m));
    IS(DSTM_OK, dstm_begin(&t)); /* its part stays good */
    IS(DSTM_OK, dstm_get(&t, a, &low, &high));
    IS(12, low);
    IS(13, high);
    IS(DSTM_OK, dstm_thread_free(&t));

    /* a cell of another memory, which this one has not */
    IS(DSTM_OK, dstm_memory_new(&m, 1, engine));
    IS(DSTM_OK, dstm_memory_new(&other, 1, engine));
    IS(DSTM_OK, dstm_cell_new(&other, 1, 1, &a));
    IS(DSTM_FOREIGN, dstm_peek(&m, a, &low, &high));
    IS(DSTM_OK, dstm_thread_new(&m, &t));
    IS(DSTM_OK, dstm_begin(&t));
    IS(DSTM_FOREIGN, dstm_get(&t, a, &low, &high));
    IS(DSTM_OK, dstm_thread_free(&t));
    IS(DSTM_OK, dstm_memory_free(&m));
    IS(DSTM_OK, dstm_memory_free(&other));
    printf("%s: each misuse has its code\n", engines[engine]);
}

int main(int count, char **words) {
    int code;
    IS(DSTM_VERSION / 10000, dstm_version() / 10000);
    for (code = 0; code <= DSTM_RETRY; code++) IS(1, strcmp(dstm_code_text((dstm_code)code), "no code") != 0);
    IS(0, strcmp(dstm_code_text((dstm_code)99), "no code"));
    return for_engines(count, words, test);
}
