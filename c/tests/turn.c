/* The turn of a transaction that was lost often: who has it, who lets it go first and for how long, when it is given
   back; and long transactions that get through beside short ones. */
#include "common.h"

#define CELLS 500
#define SCANS 5

static dstm_cell cells[CELLS], stop;

static dstm_code nothing(dstm_thread *me, void *with) {
    (void)me, (void)with;
    return DSTM_OK;
}

static dstm_code retries(dstm_thread *me, void *with) {
    (void)me, (void)with;
    return DSTM_RETRY;
}

/* How often a part is told to wait before it may begin. */
static uint32_t waits(dstm_thread *me) {
    uint32_t count = 0;
    while (dstm_turn(me, 0) == DSTM_AGAIN) count++;
    return count;
}

static void one_thread(dstm_engine engine) {
    dstm_memory memory = DSTM_ZERO;
    dstm_thread a = DSTM_ZERO, b = DSTM_ZERO;
    uint32_t most;
    IS(DSTM_OK, dstm_memory_new(&memory, 2, engine));
    IS(DSTM_CLOSED, dstm_turn(&a, 0));
    IS(DSTM_NULL, dstm_turn(NULL, 0));
    IS(DSTM_OK, dstm_thread_new(&memory, &a));
    IS(DSTM_OK, dstm_thread_new(&memory, &b));
    /* nobody has it */
    IS(DSTM_OK, dstm_turn(&a, 7));
    IS(DSTM_OK, dstm_turn(&b, 0));
    /* one that was lost eight times takes it, and gives it back with its commit */
    IS(DSTM_OK, dstm_turn(&a, 8));
    IS(DSTM_AGAIN, dstm_turn(&b, 0));
    IS(DSTM_AGAIN, dstm_turn(&b, 8));
    IS(DSTM_OK, dstm_begin(&a));
    IS(DSTM_OK, dstm_commit(&a));
    IS(DSTM_OK, dstm_turn(&b, 0));
    /* where it is given up, and where it looks */
    IS(DSTM_OK, dstm_turn(&a, 8));
    IS(DSTM_OK, dstm_begin(&a));
    IS(DSTM_AGAIN, dstm_turn(&b, 0));
    IS(DSTM_OK, dstm_abort(&a));
    IS(DSTM_OK, dstm_turn(&b, 0));
    IS(DSTM_OK, dstm_turn(&a, 8));
    IS(DSTM_OK, dstm_begin(&a));
    IS(DSTM_AGAIN, dstm_turn(&b, 0));
    dstm_look(&a);
    IS(DSTM_OK, dstm_turn(&b, 0));
    dstm_abort(&a);
    /* one that keeps it costs another one a wait, and no second one; a further lost attempt of it, a longer one */
    IS(DSTM_OK, dstm_turn(&a, 8));
    most = waits(&b);
    IS(1, most > 0 && most < 524288);
    IS(0, waits(&b));
    IS(DSTM_OK, dstm_turn(&a, 9));
    while (!waits(&b)) {}
    IS(0, waits(&b));
    IS(DSTM_OK, dstm_atomically(&b, nothing, NULL));
    /* it is given back where its part is */
    IS(DSTM_OK, dstm_thread_free(&a));
    IS(0, waits(&b));
    IS(DSTM_RETRY, dstm_atomically_for(&b, 3, retries, NULL));
    IS(DSTM_OK, dstm_thread_free(&b));
    IS(DSTM_OK, dstm_memory_free(&memory));
}

/* Moves one from a cell to another one, and tells whether it is to end. */
static dstm_code move(dstm_thread *me, void *with) {
    uint64_t *at = with, from, to, ended = 0;
    dstm_code code;
    at[0] ^= at[0] << 13, at[0] ^= at[0] >> 7, at[0] ^= at[0] << 17;
    code = dstm_get_u64(me, cells[at[0] % CELLS], &from);
    if (!code) code = dstm_set_u64(me, cells[at[0] % CELLS], from - 1);
    if (!code) code = dstm_get_u64(me, cells[at[0] / CELLS % CELLS], &to);
    if (!code) code = dstm_set_u64(me, cells[at[0] / CELLS % CELLS], to + 1);
    if (!code) code = dstm_get_u64(me, stop, &ended);
    at[1] = ended;
    return code;
}

static void *mover(void *part) {
    uint64_t at[2] = {88172645463325252u, 0};
    int left;
    at[0] += (uint64_t)(uintptr_t)part;
    for (left = 20000; left && !at[1]; left--) IS(DSTM_OK, dstm_atomically(part, move, at));
    return NULL;
}

static dstm_code sum(dstm_thread *me, void *with) {
    uint64_t *all = with, one = 0;
    dstm_code code = DSTM_OK;
    int i;
    for (*all = 0, i = 0; !code && i < CELLS; i++) {
        code = dstm_get_u64(me, cells[i], &one);
        *all += one;
    }
    return code;
}

static dstm_code end(dstm_thread *me, void *with) {
    (void)with;
    return dstm_set_u64(me, stop, 1);
}

static void *scanner(void *part) {
    uint64_t all = 0;
    int i;
    for (i = 0; i < SCANS; i++) {
        IS(DSTM_OK, dstm_atomically(part, sum, &all));
        IS(7 * CELLS, all);
    }
    IS(DSTM_OK, dstm_atomically(part, end, NULL));
    return NULL;
}

static void beside(dstm_engine engine) {
    void *(*const works[])(void *) = {scanner, mover, mover, mover};
    dstm_memory memory = DSTM_ZERO;
    dstm_thread parts[4] = {DSTM_ZERO, DSTM_ZERO, DSTM_ZERO, DSTM_ZERO};
    int i;
    IS(DSTM_OK, dstm_memory_new(&memory, 4, engine));
    for (i = 0; i < CELLS; i++) IS(DSTM_OK, dstm_cell_new_u64(&memory, 7, &cells[i]));
    IS(DSTM_OK, dstm_cell_new_u64(&memory, 0, &stop));
    for (i = 0; i < 4; i++) IS(DSTM_OK, dstm_thread_new(&memory, &parts[i]));
    run_all(4, parts, works);
    for (i = 0; i < 4; i++) IS(DSTM_OK, dstm_thread_free(&parts[i]));
    IS(DSTM_OK, dstm_memory_free(&memory));
}

static void test(dstm_engine engine) {
    one_thread(engine);
    beside(engine);
}

int main(int count, char **words) { return for_engines(count, words, test); }
