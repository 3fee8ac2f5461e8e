/* compute KIND THREADS: the nanoseconds from the start of the first thread to the end of the last one, of threads that share
   60,000,000 random numbers among them, in registers of their own: what processors gain where no memory is in the way. By `chain`
   each number is made of the one before it, so that a processor mostly waits for itself; by `apart` each is made of its place
   alone, so that it has as much to do at once as it can. */
#include <pthread.h>
#include <stdint.h>
#include <stdio.h>
#include <stdlib.h>
#include <string.h>
#include <time.h>

#define NUMBERS 60000000ull
#define MOST 64
static uint64_t each;
static int apart;
struct part { uint64_t begun, ended, seed; };

static uint64_t now(void) {
    struct timespec t;
    clock_gettime(CLOCK_MONOTONIC, &t);
    return t.tv_sec * 1000000000ull + t.tv_nsec;
}

static inline uint64_t mixed(uint64_t word) {
    word = (word ^ (word >> 30)) * 0xBF58476D1CE4E5B9ull;
    word = (word ^ (word >> 27)) * 0x94D049BB133111EBull;
    return word ^ (word >> 31);
}

static void *work(void *with) {
    struct part *part = with;
    part->begun = now();
    uint64_t seed = part->seed, sum = 0;
    if (apart) for (uint64_t n = 0; n < each; n++) sum += mixed(seed + n);
    else for (uint64_t n = 0; n < each; n++) sum = mixed(seed + sum);
    part->seed = sum;
    part->ended = now();
    return NULL;
}

int main(int n, char **args) {
    int threads = n == 3 ? atoi(args[2]) : 0;
    if (threads < 1 || threads > MOST) return 2;
    apart = !strcmp(args[1], "apart");
    each = NUMBERS / threads;
    pthread_t them[MOST];
    struct part parts[MOST];
    for (int it = 0; it < threads; it++) {
        parts[it].seed = it + 1;
        pthread_create(&them[it], NULL, work, &parts[it]);
    }
    uint64_t first = UINT64_MAX, last = 0, sum = 0;
    for (int it = 0; it < threads; it++) {
        pthread_join(them[it], NULL);
        if (parts[it].begun < first) first = parts[it].begun;
        if (parts[it].ended > last) last = parts[it].ended;
        sum += parts[it].seed;
    }
    printf("span %lu sum %lu\n", last - first, sum % 1000);
    return 0;
}
