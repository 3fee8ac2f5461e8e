/* What the tests share. */
#ifndef COMMON_H
#define COMMON_H
#include "dstm.h"
#include <pthread.h>
#include <stdio.h>
#include <stdlib.h>

/* Ends the program where a call does not answer this code. */
#define IS(code, call) \
    do { \
        int is_code = (int)(call); \
        if (is_code != (int)(code)) { \
            fprintf(stderr, "%s:%d: %s answers %d, not %d\n", __FILE__, __LINE__, #call, is_code, (int)(code)); \
            exit(1); \
        } \
    } while (0)

static const char *const engines[] = {"tl2", "polka", "karma", "polite", "greedy"};
#define ENGINES 5

/* Does the same for each engine, or for the one that is named. */
static int for_engines(int count, char **words, void (*test)(dstm_engine engine)) {
    int engine;
    for (engine = 0; engine < ENGINES; engine++) {
        const char *named = count > 1 ? words[1] : engines[engine];
        const char *name = engines[engine];
        while (*named && *named == *name) named++, name++;
        if (*named == *name) test((dstm_engine)engine);
    }
    return 0;
}

/* Numbers that look as if they came by chance, the same ones each time. */
static inline uint32_t chance(uint64_t *seed) {
    *seed = *seed * 6364136223846793005u + 1442695040888963407u;
    return (uint32_t)(*seed >> 33);
}

/* Calls a body until something has changed, where nothing has for long, as on a machine that does much else. */
static inline void wait_for(dstm_thread *me, dstm_body body, void *with) {
    dstm_code code;
    do code = dstm_atomically(me, body, with);
    while (code == DSTM_RETRY);
    IS(DSTM_OK, code);
}

/* A thread for each part. */
static inline void run_all(int threads, dstm_thread *parts, void *(*const works[])(void *)) {
    pthread_t running[64];
    int i;
    for (i = 0; i < threads; i++) IS(0, pthread_create(&running[i], NULL, works[i], &parts[i]));
    for (i = 0; i < threads; i++) IS(0, pthread_join(running[i], NULL));
}
#endif
