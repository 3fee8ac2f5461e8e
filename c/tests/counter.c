/* Four threads add to a counter, each 10,000 times: 40,000. Behind an engine the program may be told how often. By DSTM
   a part may be spent before its thread has done that, as on a machine that does much else: once all parts are back
   new ones are taken, and the threads go on. */
#include "common.h"

#define THREADS 4
static int each = 10000;
static int done[THREADS]; /* how often each thread has added */
static dstm_thread parts[THREADS];
static dstm_cell counter;

static dstm_code add(dstm_thread *me) {
    dstm_code code;
    do {
        uint64_t n = 0;
        code = dstm_begin(me);
        if (!code) code = dstm_get_u64(me, counter, &n);
        if (!code) code = dstm_set_u64(me, counter, n + 1);
        if (!code) code = dstm_commit(me);
    } while (code == DSTM_AGAIN);
    return code;
}

static void *work(void *arg) {
    dstm_thread *me = arg;
    int *mine = &done[me - parts];
    while (*mine < each) {
        dstm_code code = add(me);
        if (code == DSTM_SPENT) break;
        IS(DSTM_OK, code);
        ++*mine;
    }
    return NULL;
}

static void test(dstm_engine engine) {
    dstm_memory memory = DSTM_ZERO;
    void *(*works[THREADS])(void *) = {work, work, work, work};
    uint64_t n = 0;
    int i, left;
    IS(DSTM_OK, dstm_memory_new(&memory, THREADS, engine));
    IS(DSTM_OK, dstm_cell_new_u64(&memory, 0, &counter));
    for (i = 0; i < THREADS; i++) done[i] = 0;
    do {
        for (i = 0; i < THREADS; i++) IS(DSTM_OK, dstm_thread_new(&memory, &parts[i]));
        run_all(THREADS, parts, works);
        for (i = left = 0; i < THREADS; i++) {
            IS(DSTM_OK, dstm_thread_free(&parts[i]));
            left += each - done[i];
        }
        IS(1, left == 0 || engine != DSTM_TL2); /* by TL2 no part is spent */
    } while (left);
    IS(DSTM_OK, dstm_peek_u64(&memory, counter, &n));
    IS(THREADS * each, n);
    IS(DSTM_OK, dstm_memory_free(&memory));
    printf("%s: %llu\n", engines[engine], (unsigned long long)n);
}

int main(int count, char **words) {
    if (count > 2) each = atoi(words[2]);
    return for_engines(count, words, test);
}
