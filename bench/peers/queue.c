/* queue ROUNDS: what example_waiting's queue does, under a mutex and two condition variables: two threads pass the numbers from 1
   to ROUNDS each to two others, through eight places, and these add them up. */
#include <pthread.h>
#include <stdint.h>
#include <stdio.h>
#include <stdlib.h>

#define ROOM 8
static pthread_mutex_t lock = PTHREAD_MUTEX_INITIALIZER;
static pthread_cond_t has_room = PTHREAD_COND_INITIALIZER, has_items = PTHREAD_COND_INITIALIZER;
static uint64_t places[ROOM], first, count, rounds, sum;

static void push(uint64_t item) {
    pthread_mutex_lock(&lock);
    while (count == ROOM) pthread_cond_wait(&has_room, &lock);
    places[(first + count++) % ROOM] = item;
    pthread_cond_signal(&has_items);
    pthread_mutex_unlock(&lock);
}

static void pop(void) {
    pthread_mutex_lock(&lock);
    while (!count) pthread_cond_wait(&has_items, &lock);
    sum += places[first];
    first = (first + 1) % ROOM;
    count--;
    pthread_cond_signal(&has_room);
    pthread_mutex_unlock(&lock);
}

static void *work(void *with) {
    for (uint64_t item = 1; item <= rounds; item++) {
        if ((uintptr_t)with < 2) push(item);
        else pop();
    }
    return NULL;
}

int main(int n, char **args) {
    if (n != 2) return 2;
    rounds = strtoull(args[1], NULL, 10);
    pthread_t threads[4];
    for (uintptr_t it = 0; it < 4; it++) pthread_create(&threads[it], NULL, work, (void *)it);
    for (int it = 0; it < 4; it++) pthread_join(threads[it], NULL);
    printf("the numbers passed add up to %lu\n", sum);
    return 0;
}
