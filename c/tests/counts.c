/* Each attempt is counted, by the way in which it has ended. */
#include "common.h"

static dstm_cell cell;
static dstm_thread me, beside;

static dstm_code add(dstm_thread *part, void *with) {
    uint64_t n = 0;
    dstm_code code = dstm_get_u64(part, cell, &n);
    (void)with;
    return code ? code : dstm_set_u64(part, cell, n + 1);
}

/* The first time another thread's transaction comes between. */
static dstm_code adds_late(dstm_thread *part, void *calls) {
    uint64_t n = 0;
    dstm_code code = dstm_get_u64(part, cell, &n);
    if (!code && !(*(int *)calls)++) IS(DSTM_OK, dstm_atomically(&beside, add, NULL));
    return code ? code : dstm_set_u64(part, cell, n + 1);
}

/* The first time it retries, and another thread changes what it has read. */
static dstm_code waits_once(dstm_thread *part, void *calls) {
    uint64_t n = 0;
    dstm_code code = dstm_get_u64(part, cell, &n);
    if (code || (*(int *)calls)++) return code;
    IS(DSTM_OK, dstm_atomically(&beside, add, NULL));
    return DSTM_RETRY;
}

static dstm_code answers(dstm_thread *part, void *code) {
    (void)part;
    return *(dstm_code *)code;
}

static void test(dstm_engine engine) {
    dstm_memory memory = DSTM_ZERO;
    dstm_code gone = DSTM_RANGE, again = DSTM_AGAIN, retry = DSTM_RETRY;
    dstm_thread fresh = DSTM_ZERO;
    int i, calls = 0, waited = 0;
    me = beside = fresh;
    IS(DSTM_OK, dstm_memory_new(&memory, 2, engine));
    IS(DSTM_OK, dstm_cell_new_u64(&memory, 0, &cell));
    IS(DSTM_OK, dstm_thread_new(&memory, &me));
    IS(DSTM_OK, dstm_thread_new(&memory, &beside));
    IS(0, me.counts.begun);
    for (i = 0; i < 5; i++) {
        IS(DSTM_OK, dstm_atomically(&me, add, NULL));
        IS(DSTM_OK, dstm_view(&me, add, NULL));
    }
    IS(10, me.counts.begun);
    IS(5, me.counts.committed);
    IS(5, me.counts.viewed);
    IS(0, dstm_given_up(&me));
    IS(DSTM_RANGE, dstm_atomically(&me, answers, &gone));
    IS(1, dstm_given_up(&me));
    /* lost in a call, or at its commit */
    IS(DSTM_OK, dstm_atomically(&me, adds_late, &calls));
    IS(2, calls);
    IS(13, me.counts.begun);
    IS(6, me.counts.committed);
    IS(1, me.counts.lost + me.counts.refused);
    /* told so of another one: it is given up */
    i = (int)me.counts.lost;
    IS(DSTM_ELSEWHERE, dstm_atomically(&me, answers, &again));
    IS(i, me.counts.lost);
    IS(2, dstm_given_up(&me));
    /* waits that are woken, and in vain */
    IS(DSTM_OK, dstm_atomically(&me, waits_once, &waited));
    IS(1, me.counts.waited);
    IS(DSTM_RETRY, dstm_atomically_within(&me, 0, answers, &retry));
    IS(2, me.counts.waited);
    IS(2, dstm_given_up(&me));
    IS(17, me.counts.begun);
    IS(7, me.counts.committed);
    /* those of a handle go on where its part is another one */
    IS(DSTM_OK, dstm_thread_free(&me));
    IS(DSTM_CLOSED, dstm_atomically(&me, add, NULL));
    IS(17, me.counts.begun);
    IS(DSTM_OK, dstm_thread_free(&beside));
    IS(2, beside.counts.committed);
    IS(DSTM_OK, dstm_memory_free(&memory));
    printf("%s: %d attempts are counted\n", engines[engine], (int)me.counts.begun);
}

int main(int count, char **words) { return for_engines(count, words, test); }
