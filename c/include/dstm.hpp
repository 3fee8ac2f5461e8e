/* dstm.hpp: what C++ adds to dstm.h: a memory and a thread's part that are freed where they go out of scope, and
   transactions of lambdas, which an exception gives up.

       dstm::memory memory(4);
       dstm_cell counter = memory.cell(0);
       dstm::thread me(memory);
       me.atomically([&](dstm_thread *tx) {
           uint64_t n;
           dstm_code code = dstm_get_u64(tx, counter, &n);
           return code ? code : dstm_set_u64(tx, counter, n + 1);
       });

   A code that is none of DSTM_OK and DSTM_RETRY is thrown as a dstm::failed. */
#ifndef DSTM_HPP
#define DSTM_HPP
#include "dstm.h"
#include <stdexcept>

namespace dstm {

struct failed : std::runtime_error {
    dstm_code code;
    explicit failed(dstm_code code) : std::runtime_error(dstm_code_text(code)), code(code) {}
};

inline void done(dstm_code code) {
    if (code) throw failed(code);
}

/* It is not copied, and is where it was made. */
class memory {
    dstm_memory it = DSTM_ZERO;

public:
    explicit memory(uint32_t threads, dstm_engine engine = DSTM_TL2) { done(dstm_memory_new(&it, threads, engine)); }
    memory(const memory &) = delete;
    memory &operator=(const memory &) = delete;
    ~memory() { dstm_memory_free(&it); }
    operator dstm_memory *() { return &it; }
    dstm_cell cell(uint64_t low, uint64_t high = 0) {
        dstm_cell made = 0;
        done(dstm_cell_new(&it, low, high, &made));
        return made;
    }
};

/* The same; threads that take parts by themselves do it under a lock of the program's. */
class thread {
    dstm_thread it = DSTM_ZERO;

public:
    explicit thread(dstm_memory *memory) { done(dstm_thread_new(memory, &it)); }
    thread(const thread &) = delete;
    thread &operator=(const thread &) = delete;
    ~thread() { dstm_thread_free(&it); }
    operator dstm_thread *() { return &it; }
    const dstm_counts &counts() const { return it.counts; }

    /* Makes a transaction of a body, which answers a code, as dstm_atomically does: false, where it has waited in vain.
       An exception out of it gives the transaction up, and goes on. */
    template <class Body> bool atomically(Body body) {
        dstm_code code = DSTM_OK;
        try {
            code = dstm_atomically(&it, call<Body>, &body);
        } catch (...) {
            dstm_abort(&it);
            throw;
        }
        if (code != DSTM_RETRY) done(code);
        return !code;
    }

private:
    template <class Body> static dstm_code call(dstm_thread *me, void *body) { return (*static_cast<Body *>(body))(me); }
};

} // namespace dstm
#endif
