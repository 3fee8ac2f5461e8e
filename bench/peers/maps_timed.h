/* The frame of maps_gcc.c and maps_urcu.c: they tell what maps.cc tells, of the same transactions. */
#include <pthread.h>
#include <stdint.h>
#include <stdio.h>
#include <stdlib.h>
#include <string.h>
#include <time.h>

/* Keys are below this one; in the beginning the first map has the even ones. */
#define KEYS 65536u
/* The transactions of a thread in a run, and in how many runs one thread is timed; two threads make half as many. */
#define EACH 60000u
#define RUNS 16

struct part { uint64_t seed, begun, ended; };
static int moves, looks, threads;
static volatile uint64_t sink;

static inline uint64_t now(void) {
    struct timespec t;
    clock_gettime(CLOCK_MONOTONIC, &t);
    return t.tv_sec * 1000000000ull + t.tv_nsec;
}

static inline uint32_t draw(uint64_t *seed, uint32_t below) {
    *seed = *seed * 6364136223846793005ull + 1442695040888963407ull;
    return (uint32_t)((*seed >> 33) % below);
}

static inline int understood(int n, char **args) {
    if (n != 3) return 0;
    moves = !strcmp(args[1], "move");
    looks = atoi(args[1]);
    threads = atoi(args[2]);
    return threads == 1 || threads == 2 || threads == 4;
}

/* The key that is put in as the one with this number. */
static inline uint64_t even(uint32_t number) { return (uint64_t)number * 12347 % (KEYS / 2) * 2; }

/* Tells the nanoseconds of a transaction, from the start of the first thread to the end of the last one. */
static inline void measure(void *(*work)(void *)) {
    uint64_t nanos = 0;
    for (int run = 0; run < RUNS / threads; run++) {
        pthread_t them[4];
        struct part parts[4];
        for (int it = 0; it < threads; it++) {
            parts[it].seed = (uint64_t)run * 64 + it;
            pthread_create(&them[it], NULL, work, &parts[it]);
        }
        uint64_t first = UINT64_MAX, last = 0;
        for (int it = 0; it < threads; it++) {
            pthread_join(them[it], NULL);
            if (parts[it].begun < first) first = parts[it].begun;
            if (parts[it].ended > last) last = parts[it].ended;
        }
        nanos += last - first;
    }
    printf("%.1f\n", nanos / ((double)(RUNS / threads) * threads * EACH));
    fflush(stdout);
    _Exit(0);
}
