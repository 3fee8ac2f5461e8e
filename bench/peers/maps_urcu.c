/* maps_urcu LOOKS THREADS: as maps.cc, over liburcu's hash table without locks. Nodes are freed behind a grace period. With
   -DQSBR threads tell behind each transaction that they hold nothing, in place of telling each look. */
#ifdef QSBR
#include <urcu-qsbr.h>
#define RCU(call) urcu_qsbr_##call
#else
#include <urcu/urcu-memb.h>
#define RCU(call) urcu_memb_##call
#endif
#include <urcu/rculfhash.h>
#include "maps_timed.h"

struct node { struct cds_lfht_node link; struct rcu_head behind; uint64_t key, value; };
static struct cds_lfht *maps[2];

static unsigned long hash(uint64_t key) {
    key *= 0x9E3779B97F4A7C15ull;
    return key ^ (key >> 32);
}

static struct node *node_of(struct cds_lfht_node *link) { return caa_container_of(link, struct node, link); }

static int matches(struct cds_lfht_node *link, const void *key) { return node_of(link)->key == *(const uint64_t *)key; }

static void let_go(struct rcu_head *behind) { free(caa_container_of(behind, struct node, behind)); }

static struct cds_lfht_node *find(int map, uint64_t key) {
    struct cds_lfht_iter at;
    cds_lfht_lookup(maps[map], hash(key), matches, &key, &at);
    return cds_lfht_iter_get_node(&at);
}

static int get(int map, uint64_t key, uint64_t *value) {
    RCU(read_lock)();
    struct cds_lfht_node *link = find(map, key);
    if (link) *value = node_of(link)->value;
    RCU(read_unlock)();
    return link != NULL;
}

static void put(int map, uint64_t key, uint64_t value) {
    struct node *node = malloc(sizeof *node);
    if (!node) abort();
    node->key = key;
    node->value = value;
    cds_lfht_node_init(&node->link);
    RCU(read_lock)();
    struct cds_lfht_node *had = cds_lfht_add_replace(maps[map], hash(key), matches, &key, &node->link);
    RCU(read_unlock)();
    if (had) RCU(call_rcu)(&node_of(had)->behind, let_go);
}

static int take(int map, uint64_t key, uint64_t *value) {
    int taken = 0;
    RCU(read_lock)();
    struct cds_lfht_node *link = find(map, key);
    if (link) {
        *value = node_of(link)->value;
        taken = !cds_lfht_del(maps[map], link);
    }
    RCU(read_unlock)();
    if (taken) RCU(call_rcu)(&node_of(link)->behind, let_go);
    return taken;
}

static void make(uint64_t *seed, uint64_t *sum) {
    uint32_t drawn = draw(seed, 200 * KEYS), key = drawn % KEYS, chance = drawn / KEYS;
    uint64_t value = 0;
    if (moves) {
        if (take(0, key, &value)) put(1, key, value);
        else if (take(1, key, &value)) put(0, key, value);
    } else if ((int)(chance / 2) < looks) {
        if (get(0, key, &value)) *sum += value;
    } else if (chance % 2 == 0) put(0, key, key);
    else if (take(0, key, &value)) *sum += value;
#ifdef QSBR
    urcu_qsbr_quiescent_state();
#endif
}

static void *work(void *with) {
    struct part *part = with;
    uint64_t seed = part->seed, sum = 0;
    RCU(register_thread)();
    part->begun = now();
    for (uint32_t n = 0; n < EACH; n++) make(&seed, &sum);
    part->ended = now();
    RCU(unregister_thread)();
    sink = sum;
    return NULL;
}

int main(int n, char **args) {
    if (!understood(n, args)) return 2;
    RCU(register_thread)();
    for (int it = 0; it < 2; it++) {
#ifdef QSBR
        maps[it] = cds_lfht_new_flavor(KEYS, KEYS, 0, CDS_LFHT_AUTO_RESIZE, &urcu_qsbr_flavor, NULL);
#else
        maps[it] = cds_lfht_new_flavor(KEYS, KEYS, 0, CDS_LFHT_AUTO_RESIZE, &urcu_memb_flavor, NULL);
#endif
    }
    for (uint32_t it = 0; it < KEYS / 2; it++) put(0, even(it), even(it));
#ifdef QSBR
    urcu_qsbr_thread_offline();
#endif
    measure(work);
}
