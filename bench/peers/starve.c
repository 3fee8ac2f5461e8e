/* starve COUNT SCANS: what `bench starve` does over cells, over plain words in gcc's __transaction_atomic, by the method that
   ITM_DEFAULT_METHOD names; with -DMUTEX under one lock. A thread sums up all COUNT words, SCANS times, while three others each
   add one to a random word and to one of their own. It tells the same: how many sums there were (attempts are not counted, and
   are told as 0), and the nanoseconds; the changes of the others and their nanoseconds, beside the sums and alone. */
#include <pthread.h>
#include <sched.h>
#include <stdatomic.h>
#include <stdint.h>
#include <stdio.h>
#include <stdlib.h>
#include <time.h>

#define WRITERS 3
#define LEAST 100000000ull
#define MOST 500000000ull

#ifdef MUTEX
static pthread_mutex_t lock = PTHREAD_MUTEX_INITIALIZER;
#define ATOMIC for (int once = !pthread_mutex_lock(&lock); once; once = pthread_mutex_unlock(&lock))
#else
#define ATOMIC __transaction_atomic
#endif

static uint64_t *words, own[(WRITERS + 1) * 8];
static uint32_t count, scans;
static uint64_t rest; /* how long nobody sums up, where nobody does */
static atomic_uint begun;
static atomic_bool over;

struct share { uint64_t number, made, nanos, sum; };

static uint64_t now(void) {
    struct timespec t;
    clock_gettime(CLOCK_MONOTONIC, &t);
    return t.tv_sec * 1000000000ull + t.tv_nsec;
}

static void *look_all(void *with) {
    struct share *share = with;
    while (atomic_load(&begun) < WRITERS) sched_yield();
    uint64_t first = now();
    if (rest) {
        struct timespec t = {rest / 1000000000, rest % 1000000000};
        nanosleep(&t, NULL);
    } else for (uint32_t n = 0; n < scans; n++) {
        uint64_t sum = 0;
        ATOMIC { sum = 0; for (uint32_t at = 0; at < count; at++) sum += words[at]; }
        share->sum += sum;
        share->made++;
    }
    share->nanos = now() - first;
    atomic_store(&over, 1);
    return NULL;
}

static void *change_all(void *with) {
    struct share *share = with;
    uint64_t seed = share->number, first = now();
    atomic_fetch_add(&begun, 1);
    while (!atomic_load(&over)) {
        seed = seed * 6364136223846793005ull + 1442695040888963407ull;
        uint32_t at = (seed >> 33) % count;
        ATOMIC { words[at]++; own[share->number * 8]++; }
        share->made++;
    }
    share->nanos = now() - first;
    return NULL;
}

static void run(struct share *looks, struct share *changes) {
    pthread_t threads[WRITERS + 1];
    struct share shares[WRITERS + 1] = {{0}};
    begun = 0;
    over = 0;
    for (int n = 0; n <= WRITERS; n++) {
        shares[n].number = n;
        pthread_create(&threads[n], NULL, n ? change_all : look_all, &shares[n]);
    }
    for (int n = 0; n <= WRITERS; n++) pthread_join(threads[n], NULL);
    *looks = shares[0];
    *changes = (struct share){0};
    for (int n = 1; n <= WRITERS; n++) {
        changes->made += shares[n].made;
        changes->nanos += shares[n].nanos;
    }
}

int main(int n, char **args) {
    if (n != 3) return 2;
    count = atoi(args[1]);
    scans = atoi(args[2]);
    if (!count || !(words = malloc(count * sizeof *words))) return 3;
    for (uint32_t at = 0; at < count; at++) words[at] = 1;
    struct share looks, changes, none, alone;
    run(&looks, &changes);
    rest = looks.nanos < LEAST ? LEAST : looks.nanos > MOST ? MOST : looks.nanos;
    run(&none, &alone);
    uint64_t all = 0;
    for (uint32_t at = 0; at < count; at++) all += words[at];
    if (all != count + changes.made + alone.made) return 1;
    printf("scans %lu attempts 0 nanos %lu changes %lu busy %lu spent 0 alone %lu alone_busy %lu\n", looks.made, looks.nanos,
        changes.made, changes.nanos, alone.made, alone.nanos);
    return 0;
}
