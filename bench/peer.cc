// What `dstm run` is measured against, over one plain store.
//   g++ -std=c++17 -O2 peer.cc                            one thread, the jobs in file order
//   g++ -std=c++17 -O2 -DTRANSACTIONS -fgnu-tm -pthread   a thread for each worker, each job in a transaction of the compiler
//   g++ -std=c++17 -O2 -DMUTEX -pthread                   a thread for each worker, each job under one lock of the system
// It reads a workload on standard input and writes the report to standard output, the rows in file order. With several
// threads that is not the order in which the jobs took effect. With the word --times it writes to standard error how many
// microseconds the jobs took, on the clock and on all processors.
#include "texts.h"
#include <ctime>
#if defined(TRANSACTIONS) || defined(MUTEX)
#define THREADS
#include <thread>
#endif
#ifdef MUTEX
#include <mutex>

static std::mutex lock;
#endif

static Workload load;
static std::vector<uint64_t> replies;

static void run_job(const Job &job) {
  Operation operations[8];
  uint64_t answers[8];
  uint32_t count = job.count, accounts = load.accounts;
  for (uint32_t i = 0; i < count; i++) operations[i] = load.operations[job.begin + i];
#ifdef TRANSACTIONS
  __transaction_atomic {
    for (uint32_t i = 0; i < count; i++) answers[i] = run_operation(operations[i], accounts);
  }
#else
#ifdef MUTEX
  std::lock_guard<std::mutex> held(lock);
#endif
  for (uint32_t i = 0; i < count; i++) answers[i] = run_operation(operations[i], accounts);
#endif
  memcpy(&replies[job.begin], answers, count * sizeof(uint64_t));
}

static void run_all() {
#ifdef THREADS
  std::vector<std::vector<Job>> shares(load.workers);
  for (const Job &job : load.jobs) shares[job.worker].push_back(job);
  std::vector<std::thread> workers;
  for (const std::vector<Job> &share : shares) {
    workers.emplace_back([&share] { for (const Job &job : share) run_job(job); });
  }
  for (std::thread &worker : workers) worker.join();
#else
  for (const Job &job : load.jobs) run_job(job);
#endif
}

static long long now(clockid_t clock) {
  timespec time;
  clock_gettime(clock, &time);
  return time.tv_sec * 1000000ll + time.tv_nsec / 1000;
}

int main(int count, char **words) {
  load = read_workload(read_all());
  open_store(load.accounts, load.opening, load.list, load.tree);
  replies.resize(load.operations.size());
  long long clock = now(CLOCK_MONOTONIC), used = now(CLOCK_PROCESS_CPUTIME_ID);
  run_all();
  clock = now(CLOCK_MONOTONIC) - clock;
  used = now(CLOCK_PROCESS_CPUTIME_ID) - used;
  std::string report = report_of(load, replies);
  if (fwrite(report.data(), 1, report.size(), stdout) != report.size() || fflush(stdout)) return 4;
  if (count > 1 && !strcmp(words[1], "--times")) fprintf(stderr, "run %lld %lld\n", clock, used);
  return 0;
}
