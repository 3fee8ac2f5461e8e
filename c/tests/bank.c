/* Four threads move money between 64 accounts while two others add all accounts up: the total is always right, also
   in attempts that come to nothing. */
#include "common.h"

#define ACCOUNTS 64
#define MOVERS 4
#define AUDITORS 2
#define THREADS (MOVERS + AUDITORS)
#define EACH 5000
#define ALL (ACCOUNTS * 1000)
static dstm_thread parts[THREADS];
static dstm_cell accounts[ACCOUNTS];

struct transfer {
    dstm_cell from, to;
    uint64_t amount;
};

static dstm_code transfer(dstm_thread *me, void *with) {
    struct transfer *it = with;
    uint64_t from, to;
    dstm_code code = dstm_get_u64(me, it->from, &from);
    if (code) return code;
    if (from < it->amount) return DSTM_OK;
    if ((code = dstm_set_u64(me, it->from, from - it->amount))) return code;
    if ((code = dstm_get_u64(me, it->to, &to))) return code;
    return dstm_set_u64(me, it->to, to + it->amount);
}

static dstm_code total(dstm_thread *me, void *with) {
    uint64_t all = 0, one = 0;
    int i;
    for (i = 0; i < ACCOUNTS; i++) {
        dstm_code code = dstm_get_u64(me, accounts[i], &one);
        if (code) return code;
        all += one;
    }
    IS(ALL, all);
    *(uint64_t *)with = all;
    return DSTM_OK;
}

static void *mover(void *arg) {
    dstm_thread *me = arg;
    uint64_t seed = (uint64_t)(me - parts) * 7919 + 1;
    int i;
    for (i = 0; i < EACH; i++) {
        struct transfer it;
        seed = seed * 6364136223846793005u + 1442695040888963407u;
        it.from = accounts[(seed >> 33) % ACCOUNTS];
        it.to = accounts[(seed >> 43) % ACCOUNTS];
        it.amount = (seed >> 53) % 500;
        IS(DSTM_OK, dstm_atomically(me, transfer, &it));
    }
    return NULL;
}

static void *auditor(void *arg) {
    int i;
    for (i = 0; i < EACH / 20; i++) {
        uint64_t all = 0;
        IS(DSTM_OK, dstm_atomically(arg, total, &all));
        IS(ALL, all);
    }
    return NULL;
}

static void test(dstm_engine engine) {
    dstm_memory memory = DSTM_ZERO;
    void *(*works[THREADS])(void *) = {mover, mover, mover, mover, auditor, auditor};
    uint64_t all = 0, one = 0;
    int i;
    IS(DSTM_OK, dstm_memory_new(&memory, THREADS, engine));
    for (i = 0; i < ACCOUNTS; i++) IS(DSTM_OK, dstm_cell_new_u64(&memory, 1000, &accounts[i]));
    for (i = 0; i < THREADS; i++) IS(DSTM_OK, dstm_thread_new(&memory, &parts[i]));
    run_all(THREADS, parts, works);
    for (i = 0; i < THREADS; i++) IS(DSTM_OK, dstm_thread_free(&parts[i]));
    for (i = 0; i < ACCOUNTS; i++) {
        IS(DSTM_OK, dstm_peek_u64(&memory, accounts[i], &one));
        all += one;
    }
    IS(ALL, all);
    IS(DSTM_OK, dstm_memory_free(&memory));
    printf("%s: total %llu\n", engines[engine], (unsigned long long)all);
}

int main(int count, char **words) { return for_engines(count, words, test); }
