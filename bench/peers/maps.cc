// maps CONTAINER LOOKS THREADS: the transactions of `bench map` over what a program in C++ could take in its place. It tells the
// nanoseconds of one, from the start of the first thread to the end of the last one.
//   -DSTANDARD   maps of the standard library, under locks
//   -DTBB (-ltbb), -DCDS (-lcds), -DCK (-lck), -DCUCKOO   containers of these libraries
// LOOKS of a hundred transactions look a key up, and the others put one in or take one out, as likely; by `move` each moves a key
// from the one of two maps that has it to the other one. A container that cannot do this at once does it by two calls, and others
// may look in between.
#include <algorithm>
#include <chrono>
#include <cstdint>
#include <cstdio>
#include <cstdlib>
#include <functional>
#include <mutex>
#include <string>
#include <thread>
#include <vector>

using Key = uint64_t;
using Value = uint64_t;

// Keys are below this one; in the beginning the map has the even ones.
static const uint32_t KEYS = 65536;
// The transactions of a thread in a run, and in how many runs one thread is timed; two threads make half as many.
static const uint32_t EACH = 60000, RUNS = 16;
static bool moves;
static uint32_t looks, threads;
static volatile uint64_t sink;

static uint64_t now() {
  return std::chrono::duration_cast<std::chrono::nanoseconds>(std::chrono::steady_clock::now().time_since_epoch()).count();
}

static uint32_t draw(uint64_t &seed, uint32_t below) {
  seed = seed * 6364136223846793005ull + 1442695040888963407ull;
  return uint32_t((seed >> 33) % below);
}

static inline uint64_t spread(Key key) { return key * 0x9E3779B97F4A7C15ull; }

// What most containers need of a thread.
struct Container {
  static void enter() {}
  static void leave() {}
};

#ifdef STANDARD
#include <map>
#include <shared_mutex>
#include <unordered_map>

template <class Map> struct Plain {
  Map map;
  bool get(Key key, Value &value) {
    auto at = map.find(key);
    if (at == map.end()) return false;
    value = at->second;
    return true;
  }
  void put(Key key, Value value) { map[key] = value; }
  bool remove(Key key, Value &value) {
    auto at = map.find(key);
    if (at == map.end()) return false;
    value = at->second;
    map.erase(at);
    return true;
  }
  static void move(Plain &first, Plain &second, Key key) {
    Value value;
    if (first.remove(key, value)) second.put(key, value);
    else if (second.remove(key, value)) first.put(key, value);
  }
};
using Tree = Plain<std::map<Key, Value>>;
using Hash = Plain<std::unordered_map<Key, Value>>;

// A map under one lock, which both maps have; look-ups are beside one another where it can be shared.
static std::mutex one_lock;
static std::shared_mutex shared_lock;

template <class Map> struct Mutexed : Container {
  Map map;
  bool get(Key key, Value &value) {
    std::lock_guard held(one_lock);
    return map.get(key, value);
  }
  void put(Key key, Value value) {
    std::lock_guard held(one_lock);
    map.put(key, value);
  }
  bool remove(Key key, Value &value) {
    std::lock_guard held(one_lock);
    return map.remove(key, value);
  }
  static void move(Mutexed &first, Mutexed &second, Key key) {
    std::lock_guard held(one_lock);
    Map::move(first.map, second.map, key);
  }
};

template <class Map> struct Shared : Container {
  Map map;
  bool get(Key key, Value &value) {
    std::shared_lock held(shared_lock);
    return map.get(key, value);
  }
  void put(Key key, Value value) {
    std::unique_lock held(shared_lock);
    map.put(key, value);
  }
  bool remove(Key key, Value &value) {
    std::unique_lock held(shared_lock);
    return map.remove(key, value);
  }
  static void move(Shared &first, Shared &second, Key key) {
    std::unique_lock held(shared_lock);
    Map::move(first.map, second.map, key);
  }
};

// 64 maps, each under a lock of its own. A move takes the key's lock of the first map and then that of the second.
struct Striped : Container {
  struct alignas(64) Stripe {
    std::mutex lock;
    Hash map;
  };
  Stripe stripes[64];
  Stripe &of(Key key) { return stripes[spread(key) >> 58]; }
  bool get(Key key, Value &value) {
    Stripe &stripe = of(key);
    std::lock_guard held(stripe.lock);
    return stripe.map.get(key, value);
  }
  void put(Key key, Value value) {
    Stripe &stripe = of(key);
    std::lock_guard held(stripe.lock);
    stripe.map.put(key, value);
  }
  bool remove(Key key, Value &value) {
    Stripe &stripe = of(key);
    std::lock_guard held(stripe.lock);
    return stripe.map.remove(key, value);
  }
  static void move(Striped &first, Striped &second, Key key) {
    Stripe &one = first.of(key), &other = second.of(key);
    std::lock_guard held(one.lock), also(other.lock);
    Hash::move(one.map, other.map, key);
  }
};
#endif

#ifdef TBB
#include <tbb/concurrent_hash_map.h>
#include <tbb/concurrent_map.h>

struct TbbHash : Container {
  using Map = tbb::concurrent_hash_map<Key, Value>;
  Map map;
  TbbHash() : map(KEYS) {}
  bool get(Key key, Value &value) {
    Map::const_accessor at;
    if (!map.find(at, key)) return false;
    value = at->second;
    return true;
  }
  void put(Key key, Value value) {
    Map::accessor at;
    map.insert(at, key);
    at->second = value;
  }
  bool remove(Key key, Value &value) {
    Map::accessor at;
    if (!map.find(at, key)) return false;
    value = at->second;
    return map.erase(at);
  }
};

// It takes no key out beside other threads, so it is measured where all look.
struct TbbMap : Container {
  tbb::concurrent_map<Key, Value> map;
  bool get(Key key, Value &value) {
    auto at = map.find(key);
    if (at == map.end()) return false;
    value = at->second;
    return true;
  }
  void put(Key key, Value value) { map.emplace(key, value); }
  bool remove(Key, Value &) { abort(); }
};
#endif

#ifdef CDS
#include <cds/init.h>
#include <cds/gc/hp.h>
#include <cds/container/feldman_hashmap_hp.h>
#include <cds/container/michael_kvlist_hp.h>
#include <cds/container/michael_map.h>
#include <cds/container/skip_list_map_hp.h>
#include <cds/container/split_list_map.h>

struct Spread {
  size_t operator()(Key key) const { return spread(key) ^ (spread(key) >> 29); }
};
struct OfList : cds::container::michael_list::traits {
  using less = std::less<Key>;
};
struct OfMichael : cds::container::michael_map::traits {
  using hash = Spread;
};
struct OfSplit : cds::container::split_list::traits {
  using ordered_list = cds::container::michael_list_tag;
  using hash = Spread;
  using ordered_list_traits = OfList;
};
struct OfSkip : cds::container::skip_list::traits {
  using less = std::less<Key>;
};
using List = cds::container::MichaelKVList<cds::gc::HP, Key, Value, OfList>;
using Michael = cds::container::MichaelHashMap<cds::gc::HP, List, OfMichael>;
using Split = cds::container::SplitListMap<cds::gc::HP, Key, Value, OfSplit>;
using Skip = cds::container::SkipListMap<cds::gc::HP, Key, Value, OfSkip>;
using Feldman = cds::container::FeldmanHashMap<cds::gc::HP, Key, Value>;

template <class Map> struct Cds : Container {
  Map map;
  template <class... Words> explicit Cds(Words... words) : map(words...) {}
  static void enter() { cds::threading::Manager::attachThread(); }
  static void leave() { cds::threading::Manager::detachThread(); }
  bool get(Key key, Value &value) {
    return map.find(key, [&](auto &item) { value = item.second; });
  }
  void put(Key key, Value value) {
    map.update(key, [&](bool, auto &item) { item.second = value; });
  }
  bool remove(Key key, Value &value) {
    return map.erase(key, [&](auto &item) { value = item.second; });
  }
};
struct CdsMichael : Cds<Michael> {
  CdsMichael() : Cds(KEYS, 1) {}
};
struct CdsSplit : Cds<Split> {
  CdsSplit() : Cds(KEYS, 1) {}
};
struct CdsSkip : Cds<Skip> {};
// Its keys are to be spread, and each by itself.
struct CdsFeldman : Cds<Feldman> {
  CdsFeldman() : Cds(8, 4) {}
  bool get(Key key, Value &value) { return Cds::get(spread(key), value); }
  void put(Key key, Value value) {
    map.update(spread(key), [&](auto &item, auto *) { item.second = value; });
  }
  bool remove(Key key, Value &value) { return Cds::remove(spread(key), value); }
};
#endif

#ifdef CK
extern "C" {
#include <ck_ht.h>
}
static void *taken(size_t size) { return malloc(size); }
static void *taken_anew(void *block, size_t, size_t size, bool) { return realloc(block, size); }
static void given_back(void *block, size_t, bool) { free(block); }

// Readers run beside one writer, so a lock stands among the writers. A key or value of 0 has a meaning there.
struct CkHt : Container {
  ck_ht_t map;
  ck_malloc memory{};
  std::mutex lock;
  CkHt() {
    memory.malloc = taken;
    memory.realloc = taken_anew;
    memory.free = given_back;
    if (!ck_ht_init(&map, CK_HT_MODE_DIRECT | CK_HT_WORKLOAD_DELETE, NULL, &memory, 4 * KEYS, 6602834)) abort();
  }
  bool get(Key key, Value &value) {
    ck_ht_hash_t hash;
    ck_ht_entry_t entry;
    ck_ht_hash_direct(&hash, &map, key + 1);
    ck_ht_entry_key_set_direct(&entry, key + 1);
    if (!ck_ht_get_spmc(&map, hash, &entry)) return false;
    value = ck_ht_entry_value_direct(&entry) - 1;
    return true;
  }
  void put(Key key, Value value) {
    ck_ht_hash_t hash;
    ck_ht_entry_t entry;
    ck_ht_hash_direct(&hash, &map, key + 1);
    ck_ht_entry_set_direct(&entry, hash, key + 1, value + 1);
    std::lock_guard held(lock);
    ck_ht_set_spmc(&map, hash, &entry);
  }
  bool remove(Key key, Value &value) {
    ck_ht_hash_t hash;
    ck_ht_entry_t entry;
    ck_ht_hash_direct(&hash, &map, key + 1);
    ck_ht_entry_key_set_direct(&entry, key + 1);
    std::lock_guard held(lock);
    if (!ck_ht_remove_spmc(&map, hash, &entry)) return false;
    value = ck_ht_entry_value_direct(&entry) - 1;
    return true;
  }
};
#endif

#ifdef CUCKOO
#include <libcuckoo/cuckoohash_map.hh>

struct Cuckoo : Container {
  libcuckoo::cuckoohash_map<Key, Value> map;
  Cuckoo() : map(2 * KEYS) {}
  bool get(Key key, Value &value) { return map.find(key, value); }
  void put(Key key, Value value) { map.insert_or_assign(key, value); }
  bool remove(Key key, Value &value) {
    return map.erase_fn(key, [&](Value &had) {
      value = had;
      return true;
    });
  }
};
#endif

// Moves a key by a container's own move, where it has one, and else by two calls.
template <class Map> auto move_key(Map &first, Map &second, Key key, int) -> decltype(Map::move(first, second, key)) {
  Map::move(first, second, key);
}
template <class Map> void move_key(Map &first, Map &second, Key key, long) {
  Value value;
  if (first.remove(key, value)) second.put(key, value);
  else if (second.remove(key, value)) first.put(key, value);
}

// The transactions of a thread in a run.
template <class Map> void make_all(Map &first, Map &second, uint64_t seed) {
  uint64_t sum = 0;
  Value value = 0;
  for (uint32_t number = 0; number < EACH; number++) {
    uint32_t drawn = draw(seed, 200 * KEYS), key = drawn % KEYS, chance = drawn / KEYS;
    if (moves) move_key(first, second, key, 0);
    else if (chance / 2 < looks) sum += first.get(key, value) ? value : 0;
    else if (chance % 2 == 0) first.put(key, key);
    else sum += first.remove(key, value) ? value : 0;
  }
  sink = sum;
}

template <class Map> int measure() {
  Map::enter();
  Map &first = *new Map, &second = *new Map;
  for (uint32_t n = 0; n < KEYS / 2; n++) {
    Key key = uint64_t(n) * 12347 % (KEYS / 2) * 2;
    first.put(key, key);
  }
  uint32_t runs = RUNS / threads;
  uint64_t nanos = 0;
  for (uint32_t run = 0; run < runs; run++) {
    std::vector<uint64_t> begun(threads), ended(threads);
    std::vector<std::thread> them;
    for (uint32_t it = 0; it < threads; it++)
      them.emplace_back([&, it] {
        Map::enter();
        begun[it] = now();
        make_all(first, second, uint64_t(run) * 64 + it);
        ended[it] = now();
        Map::leave();
      });
    for (auto &it : them) it.join();
    nanos += *std::max_element(ended.begin(), ended.end()) - *std::min_element(begun.begin(), begun.end());
  }
  printf("%.1f\n", double(nanos) / (double(runs) * threads * EACH));
  fflush(stdout);
  _Exit(0);
}

int main(int count, char **words) {
  if (count != 4) return 2;
  std::string name = words[1], said = words[2];
  moves = said == "move";
  looks = uint32_t(atoi(words[2]));
  threads = uint32_t(atoi(words[3]));
  if (threads != 1 && threads != 2 && threads != 4) return 2;
#ifdef STANDARD
  if (name == "mutex_tree") return measure<Mutexed<Tree>>();
  if (name == "mutex_hash") return measure<Mutexed<Hash>>();
  if (name == "shared_tree") return measure<Shared<Tree>>();
  if (name == "shared_hash") return measure<Shared<Hash>>();
  if (name == "striped_hash") return measure<Striped>();
#endif
#ifdef TBB
  if (name == "tbb_hash") return measure<TbbHash>();
  if (name == "tbb_map") return measure<TbbMap>();
#endif
#ifdef CDS
  cds::Initialize();
  static cds::gc::HP collector(80, 16);
  if (name == "cds_michael") return measure<CdsMichael>();
  if (name == "cds_split") return measure<CdsSplit>();
  if (name == "cds_skip") return measure<CdsSkip>();
  if (name == "cds_feldman") return measure<CdsFeldman>();
#endif
#ifdef CK
  if (name == "ck_ht") return measure<CkHt>();
#endif
#ifdef CUCKOO
  if (name == "cuckoo") return measure<Cuckoo>();
#endif
  return 3;
}
