/* maps_gcc LOOKS THREADS: as maps.cc, over a hash table of arrays, each transaction in gcc's __transaction_atomic, by the
   method that ITM_DEFAULT_METHOD names. Keys of one home are chained; each key has a node of its own, so that no two writers
   meet at a list of free ones. */
#include "maps_timed.h"

#define SAFE __attribute__((transaction_safe))

struct map { uint32_t heads[KEYS], next[KEYS + 1]; uint64_t key[KEYS + 1], value[KEYS + 1]; };
static struct map maps[2];

SAFE static inline uint32_t home(uint64_t key) { return (uint32_t)((key * 0x9E3779B97F4A7C15ull) >> 48); }

SAFE static int get(struct map *map, uint64_t key, uint64_t *value) {
    for (uint32_t node = map->heads[home(key)]; node; node = map->next[node]) {
        if (map->key[node] == key) {
            *value = map->value[node];
            return 1;
        }
    }
    return 0;
}

SAFE static void put(struct map *map, uint64_t key, uint64_t value) {
    uint32_t *head = &map->heads[home(key)], node;
    for (node = *head; node; node = map->next[node]) {
        if (map->key[node] == key) {
            map->value[node] = value;
            return;
        }
    }
    node = (uint32_t)key + 1;
    map->key[node] = key;
    map->value[node] = value;
    map->next[node] = *head;
    *head = node;
}

SAFE static int take(struct map *map, uint64_t key, uint64_t *value) {
    for (uint32_t *at = &map->heads[home(key)]; *at; at = &map->next[*at]) {
        uint32_t node = *at;
        if (map->key[node] == key) {
            *value = map->value[node];
            *at = map->next[node];
            return 1;
        }
    }
    return 0;
}

static void make(uint64_t *seed, uint64_t *sum) {
    uint32_t drawn = draw(seed, 200 * KEYS), key = drawn % KEYS, chance = drawn / KEYS;
    uint64_t value = 0;
    int had = 0;
    if (moves) {
        __transaction_atomic {
            if (take(&maps[0], key, &value)) put(&maps[1], key, value);
            else if (take(&maps[1], key, &value)) put(&maps[0], key, value);
        }
    } else if ((int)(chance / 2) < looks) {
        __transaction_atomic { had = get(&maps[0], key, &value); }
    } else if (chance % 2 == 0) {
        __transaction_atomic { put(&maps[0], key, key); }
    } else {
        __transaction_atomic { had = take(&maps[0], key, &value); }
    }
    if (had) *sum += value;
}

static void *work(void *with) {
    struct part *part = with;
    uint64_t seed = part->seed, sum = 0;
    part->begun = now();
    for (uint32_t n = 0; n < EACH; n++) make(&seed, &sum);
    part->ended = now();
    sink = sum;
    return NULL;
}

int main(int n, char **args) {
    if (!understood(n, args)) return 2;
    for (uint32_t it = 0; it < KEYS / 2; it++) put(&maps[0], even(it), even(it));
    measure(work);
}
