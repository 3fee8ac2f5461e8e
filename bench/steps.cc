// What the atomic steps of the engine's calls take by themselves: one thread, on a table with the words of a `Stm`.
// steps MANAGER prints what `bench engine` does: for tables of 1, 100 and 10,000 objects how many of them an attempt opens, and
// the nanoseconds of an attempt that quits, of one that commits, of one that opens them for reading and commits, and of
// one that opens them for writing and commits. The owners of the objects have committed.
#include <algorithm>
#include <atomic>
#include <chrono>
#include <cstdint>
#include <cstdio>
#include <cstring>
#include <memory>
#include <vector>
using u32 = uint32_t;
using u64 = uint64_t;
using Word = std::atomic<u64>;
using Clock = std::chrono::steady_clock;

static const u64 ACTIVE = 1, VALIDATING = 3, COMMITTED = 4, ABORTED = 5;
static const u32 ATTEMPTS = 400, TABLES = 15, OPENED = 32;
static u64 sum;

// A table for one caller: the objects, then the statuses and ranks of attempts, then the owners, old versions, low and
// high parts of locators, then the callers, the numbers and the stamps.
struct Table {
  u64 attempts, locators;
  std::unique_ptr<Word[]> words;
  Word *object, *status, *rank, *owner, *old, *low, *high, *numbers, *stamps;
  explicit Table(u32 objects) : attempts(16384), locators(objects + 65536), words(new Word[objects + 2 * attempts + 4 * locators + 3]()) {
    object = words.get(), status = object + objects, rank = status + attempts, owner = rank + attempts;
    old = owner + locators, low = old + locators, high = low + locators, numbers = high + locators + 1, stamps = numbers + 1;
    for (u64 i = 0; i < objects + 2 * attempts + 4 * locators + 3; i++) words[i].store(0);
  }
};

struct Steps {
  Table &t;
  bool ranks, rises;
  bool fresh = true, checked = false;
  u64 attempt = 0, locator = 0;
  void begin() {
    attempt++;
    if (ranks && !rises && fresh) sum += t.stamps->fetch_add(1);
    fresh = checked = false;
    if (ranks) t.rank[attempt].store(0);
    t.status[attempt].store(ACTIVE);
  }
  void resolve(u32 o) {
    u64 word = t.object[o].load();
    if (!word) return;
    u64 owner = t.owner[word - 1].load();
    sum += t.status[owner].load() + t.high[word - 1].load() + t.low[word - 1].load();
  }
  void stand() {
    sum += t.status[attempt].load();
    if (rises) t.rank[attempt].store(1);
  }
  // The first pass checks what was read. At the later ones no number was drawn since.
  void read(u32 o) {
    resolve(o);
    sum += t.numbers->load();
    if (!checked) sum += t.object[o].load();
    checked = true;
    stand();
  }
  void write(u32 o) {
    u64 word = t.object[o].load();
    resolve(o);
    t.owner[locator].store(attempt);
    t.old[locator].store(word);
    t.object[o].compare_exchange_strong(word, ++locator);
    sum += t.numbers->load();
    stand();
  }
  void put(u64 own) {
    t.high[own].store(0);
    t.low[own].store(1);
  }
  void quit() {
    u64 found = ACTIVE;
    t.status[attempt].compare_exchange_strong(found, ABORTED);
  }
  void commit() {
    u64 found = ACTIVE;
    t.status[attempt].compare_exchange_strong(found, VALIDATING);
    t.numbers->fetch_add(1);
    found = VALIDATING;
    t.status[attempt].compare_exchange_strong(found, COMMITTED);
    fresh = true;
  }
};

enum Use { QUIT, COMMIT, READ, WRITE };

// Nanoseconds of one attempt with each list of objects.
static double time_attempts(Steps &steps, const std::vector<std::vector<u32>> &lists, Use use) {
  auto start = Clock::now();
  for (auto &places : lists) {
    steps.begin();
    u64 first = steps.locator;
    if (use == QUIT) {
      steps.quit();
      continue;
    }
    if (use == READ) for (u32 o : places) steps.read(o);
    if (use == WRITE) for (u32 o : places) steps.write(o);
    for (u64 own = first; own < steps.locator; own++) steps.put(own);
    steps.commit();
  }
  return std::chrono::duration<double, std::nano>(Clock::now() - start).count() / ATTEMPTS;
}

int main(int count, char **words) {
  const char *manager = count > 1 ? words[1] : "polka";
  bool ranks = strcmp(manager, "polite"), rises = ranks && strcmp(manager, "greedy");
  printf("objects opened     quit   commit     read    write\n");
  for (u32 objects : {1u, 100u, 10000u}) {
    u32 opened = std::min(objects, OPENED);
    std::vector<std::vector<u32>> lists(ATTEMPTS);
    for (u32 i = 0; i < ATTEMPTS; i++)
      for (u32 j = 0; j < opened; j++) lists[i].push_back((i * 611 % objects + 37 * j) % objects);
    double least[4] = {1e18, 1e18, 1e18, 1e18};
    for (u32 table = 0; table < TABLES; table++) {
      Table t(objects);
      Steps steps{t, ranks, rises};
      time_attempts(steps, lists, WRITE);
      for (Use use : {QUIT, COMMIT, READ, WRITE}) least[use] = std::min(least[use], time_attempts(steps, lists, use));
    }
    printf("%7u %6u %8.1f %8.1f %8.1f %8.1f\n", objects, opened, least[QUIT], least[COMMIT], least[READ], least[WRITE]);
  }
  return sum == 42;
}
