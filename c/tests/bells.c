/* Parts of one program, each of which includes dstm.h: two of the program itself, and a shared library (PART 2). They
   have one bell, so that a commit of one wakes who sleeps in another one. */
#if PART == 0
#include "common.h"
#else
#include "dstm.h"
#endif

#ifdef __cplusplus
extern "C" {
#endif
const void *bell_of_second(void);
const void *bell_of_library(void);
dstm_code commit_of_library(dstm_thread *me, dstm_cell cell);
#ifdef __cplusplus
}
#endif

#if PART == 0
static dstm_thread parts[2];
static dstm_cell cell;
static uint64_t came;

static dstm_code wants(dstm_thread *me, void *with) {
    uint64_t is = 0;
    dstm_code code = dstm_get_u64(me, cell, &is);
    (void)with;
    return code ? code : is ? DSTM_OK : DSTM_RETRY;
}
static void *waits(void *part) {
    IS(DSTM_OK, dstm_atomically(part, wants, NULL));
    came = dstm_now(DSTM_CLOCK);
    return NULL;
}

static void test(dstm_engine engine) {
    uint64_t begun;
    int i, hits = 0;
    IS(1, bell_of_second() == (const void *)&DSTM_BELL);
    IS(1, bell_of_library() == (const void *)&DSTM_BELL);
    for (i = 0; i < 9; i++) {
        dstm_memory memory = DSTM_ZERO;
        pthread_t running;
        IS(DSTM_OK, dstm_memory_new(&memory, 2, engine));
        IS(DSTM_OK, dstm_cell_new_u64(&memory, 0, &cell));
        IS(DSTM_OK, dstm_thread_new(&memory, &parts[0]));
        IS(DSTM_OK, dstm_thread_new(&memory, &parts[1]));
        IS(0, pthread_create(&running, NULL, waits, &parts[0]));
        dstm_sleep(150000000);
        begun = dstm_now(DSTM_CLOCK);
        IS(DSTM_OK, commit_of_library(&parts[1], cell));
        IS(0, pthread_join(running, NULL));
        hits += came - begun < 40000000; /* by itself it would look some 80 ms later */
        IS(DSTM_OK, dstm_thread_free(&parts[0]));
        IS(DSTM_OK, dstm_thread_free(&parts[1]));
        IS(DSTM_OK, dstm_memory_free(&memory));
    }
    IS(1, hits > 4);
    printf("%s: one bell\n", engines[engine]);
}

int main(int count, char **words) { return for_engines(count, words, test); }
#elif PART == 1
const void *bell_of_second(void) { return &DSTM_BELL; }
#else
const void *bell_of_library(void) { return &DSTM_BELL; }
static dstm_code set_it(dstm_thread *me, void *with) { return dstm_set_u64(me, *(dstm_cell *)with, 1); }
dstm_code commit_of_library(dstm_thread *me, dstm_cell cell) { return dstm_atomically(me, set_it, &cell); }
#endif
