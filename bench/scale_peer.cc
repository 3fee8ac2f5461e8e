// What `bench scale`, `bench cells` and `bench map` are measured against, over plain words: the same transactions, drawn alike.
//   g++ -std=c++17 -O2 scale_peer.cc                            one thread
//   g++ -std=c++17 -O2 -DTRANSACTIONS -fgnu-tm -pthread         a thread for each worker, in transactions of the compiler
//   g++ -std=c++17 -O2 -DMUTEX -pthread                         a thread for each worker, under one lock of the system
// scale_peer LOAD THREADS tells the nanoseconds of the threads, from before they are made to their end, and from the first that
// begins to the last that ends. The first program writes the load with a third word, for prototypes that read it as 32-bit
// words.
#include "store.h"
#include <algorithm>
#include <chrono>
#include <cstdio>
#include <cstdlib>
#include <cstring>
#include <pthread.h>
#include <string>
#include <thread>
#include <vector>

enum Kind : uint32_t { Transfer, Balance, Total, Member, Insert, Remove, Chain, ChainChange, Range };
struct Step { uint32_t kind, first, second, number; };
static uint64_t words[8192];
static std::string load;
static uint32_t threads;

#ifdef TRANSACTIONS
#define ATOMIC __transaction_atomic
#elif defined(MUTEX)
static pthread_mutex_t lock_ = PTHREAD_MUTEX_INITIALIZER;
#define ATOMIC for (bool once = !pthread_mutex_lock(&lock_); once; once = pthread_mutex_unlock(&lock_))
#else
#define ATOMIC
#endif

static long long now() {
  return std::chrono::duration_cast<std::chrono::nanoseconds>(std::chrono::steady_clock::now().time_since_epoch()).count();
}

// A random word for a place of a transaction, as `bench scale` draws it.
static uint64_t draw(uint32_t thread, uint32_t number, uint32_t place) {
  uint64_t word = (((uint64_t(thread) << 32) ^ (uint64_t(number) << 8)) + place) * 0x9E3779B97F4A7C15ull;
  word = (word ^ (word >> 30)) * 0xBF58476D1CE4E5B9ull;
  word = (word ^ (word >> 27)) * 0x94D049BB133111EBull;
  return word ^ (word >> 31);
}

static Step pay(uint32_t first, uint32_t count, uint64_t drawn) {
  return {Transfer, first + uint32_t(drawn % count), first + uint32_t(drawn / 4096 % count), 1};
}

static Step seek(uint64_t looks, uint64_t drawn) {
  return {drawn / 4096 % 100 < looks ? Member : drawn % 2 ? Remove : Insert, uint32_t(drawn / 16777216 % 65535), 0, 0};
}

static bool is(const char *name) { return load == name; }

static uint32_t transactions() {
  return is("readers256") || is("reserve") ? 20000 : is("readers4096") ? 1600 : is("own") ? 4000 : 12000;
}

// The steps of a transaction, and how many they are.
static uint32_t steps_of(uint32_t thread, uint32_t number, Step *steps) {
  auto word = [=](uint32_t place) { return draw(thread, number, place); };
  if (load.compare(0, 7, "readers") == 0) {
    steps[0] = number % 100 == 99 ? pay(0, 4096, word(0)) : Step{Range, 0, uint32_t(atoi(load.c_str() + 7)), 0};
    return 1;
  }
  uint32_t count = is("lists") ? 64 : is("reserve") ? 9 : is("own") ? 32 : 16;
  for (uint32_t i = 0; i < count; i++) {
    if (is("lists")) {
      uint64_t drawn = word(i / 4);
      uint32_t first = drawn % 1024 * 4;
      steps[i] = i % 4 == 3 && drawn / 4096 % 10 == 0 ? Step{Transfer, first + 3, first, 1} : Step{Balance, first + i % 4, 0, 0};
    } else if (is("reserve")) {
      steps[i] = i == 8 ? pay(0, 4096, word(8)) : seek(100, word(i));
    } else {
      steps[i] = is("own") ? pay(thread % 4 * 1024, 1024, word(i)) : seek(atoi(load.c_str() + 4), word(i));
    }
  }
  return count;
}

IN_TRANSACTION static uint64_t run_step(const Step &step) {
  switch (step.kind) {
    case Transfer: return transfer(step.first, step.second, step.number);
    case Balance: return accounts[step.first];
    case Member: return tree_member(step.first);
    case Insert: return tree_insert(step.first);
    case Remove: return tree_remove(step.first);
    default: {
      uint64_t sum = 0;
      for (uint32_t i = 0; i < step.second; i++) sum += accounts[i];
      return sum;
    }
  }
}

static uint64_t run_store(uint32_t thread, uint32_t count) {
  uint64_t sum = 0;
  for (uint32_t number = 0; number < count; number++) {
    Step steps[64];
    uint32_t length = steps_of(thread, number, steps);
    uint64_t found = 0;
    ATOMIC {
      found = 0;
      for (uint32_t i = 0; i < length; i++) found += run_step(steps[i]);
    }
    sum += found;
  }
  return sum;
}

static uint32_t below(uint64_t &seed, uint32_t limit) {
  seed = seed * 6364136223846793005ull + 1442695040888963407ull;
  return (seed >> 33) % limit;
}

// What `bench cells` does with cells, with words.
static uint64_t run_words(uint32_t thread, uint32_t count) {
  uint64_t seed = thread, total = 0;
  for (uint32_t i = 0; i < count; i++) {
    if (is("disjoint")) {
      uint32_t first = 2048 * thread + below(seed, 1024), second = 2048 * thread + below(seed, 1024);
      ATOMIC { words[first]++; words[second]--; }
    } else if (is("one")) {
      ATOMIC { words[0]++; }
    } else if (is("bank")) {
      uint32_t source = below(seed, 16), target = (source + 1 + below(seed, 15)) % 16;
      ATOMIC { if (words[source] > 0) { words[source]--; words[target]++; } }
    } else {
      bool writes = below(seed, 50) == 0;
      uint32_t places[16];
      for (uint32_t &place : places) place = below(seed, 1024);
      uint64_t sum = 0;
      ATOMIC { sum = 0; for (uint32_t place : places) sum += words[place]; if (writes) words[places[15]]++; }
      total += sum;
    }
  }
  return total;
}

// What `bench map` does with a map of cells, with the tree.
static uint64_t run_map(uint32_t thread, uint32_t count) {
  uint64_t seed = thread, sum = 0;
  uint32_t looks = atoi(load.c_str() + 3);
  for (uint32_t i = 0; i < count; i++) {
    uint32_t drawn = below(seed, 200 * 65536), key = drawn % 65536, chance = drawn / 65536;
    uint64_t found = 0;
    if (chance / 2 < looks) {
      ATOMIC { found = tree_get(key); }
    } else if (chance % 2 == 0) {
      ATOMIC { found = tree_put(key, key); }
    } else {
      ATOMIC { found = tree_remove(key); }
    }
    sum += found;
  }
  return sum;
}

static void put(uint32_t word) { fwrite(&word, 4, 1, stdout); }

// How many accounts, keys, nodes, threads, insertions and transactions, and how many locators DSTM is to have; the keys; and
// of each transaction its thread and its steps.
static void write(uint32_t count) {
  for (uint32_t word : {4096u, 65535u, 0u, threads, 32767u, count * threads, 524288u}) put(word);
  for (uint32_t i = 0; i < 32767; i++) put(i * 12347 % 32768 * 2);
  for (uint32_t number = 0; number < count; number++) {
    for (uint32_t thread = 0; thread < threads; thread++) {
      Step steps[64];
      uint32_t length = steps_of(thread, number, steps);
      put(thread), put(length);
      fwrite(steps, sizeof(Step), length, stdout);
    }
  }
}

int main(int count, char **given) {
  if (count < 3) return 2;
  load = given[1], threads = atoi(given[2]);
  bool of_cells = is("disjoint") || is("one") || is("bank") || is("reads"), of_map = load.compare(0, 3, "map") == 0;
  uint32_t each = (of_map ? 960000 : of_cells ? is("reads") ? 40000 : 60000 : transactions()) / threads;
  if (count > 3) return write(each), 0;
  open_store(4096, 1000000, 0, 65535);
  for (uint32_t i = 0; i < 32767; i++) tree_insert(i * 12347 % 32768 * 2);
  for (uint64_t &word : words) word = 1000000;
  std::vector<long long> began(16 * threads), ended(16 * threads);
  std::vector<uint64_t> sums(16 * threads);
  auto go = [&](uint32_t thread) {
    began[16 * thread] = now();
    sums[16 * thread] = (of_map ? run_map : of_cells ? run_words : run_store)(thread, each);
    ended[16 * thread] = now();
  };
  long long start = now(), first = -1ull >> 1, last = 0;
  uint64_t sum = 0;
#if defined(TRANSACTIONS) || defined(MUTEX)
  std::vector<std::thread> crew;
  for (uint32_t i = 0; i < threads; i++) crew.emplace_back(go, i);
  for (std::thread &it : crew) it.join();
#else
  for (uint32_t i = 0; i < threads; i++) go(i);
#endif
  long long end = now();
  for (uint32_t i = 0; i < threads; i++) {
    first = std::min(first, began[16 * i]), last = std::max(last, ended[16 * i]), sum += sums[16 * i];
  }
  printf("run %lld span %lld sum %llu\n", end - start, last - first, (unsigned long long)sum);
}
