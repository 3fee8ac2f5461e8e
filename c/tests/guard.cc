/* What C++ adds: a transaction of a lambda, an exception out of one, and a part that is freed in the middle. */
#include "dstm.hpp"
#include "common.h"

static void test(dstm_engine engine) {
    dstm::memory memory(2, engine);
    dstm_cell counter = memory.cell(5);
    dstm_queue queue = {0, 0};
    uint64_t n = 0;
    IS(DSTM_OK, dstm_queue_new(memory, 2, &queue));
    {
        dstm::thread me(memory);
        auto add = [&](dstm_thread *tx) {
            dstm_code code = dstm_get_u64(tx, counter, &n);
            return code ? code : dstm_set_u64(tx, counter, n + 1);
        };
        IS(1, me.atomically(add));
        int thrown = 0;
        try {
            me.atomically([&](dstm_thread *tx) -> dstm_code {
                IS(DSTM_OK, add(tx));
                throw 7;
            });
        } catch (int it) {
            thrown = it;
        }
        IS(7, thrown);
        IS(1, me.atomically(add)); /* nothing of it took effect, and another one may begin */
        IS(6, n);
        try {
            me.atomically([&](dstm_thread *tx) { return dstm_set_u64(tx, counter + 77, 1); });
        } catch (const dstm::failed &it) {
            thrown = it.code;
        }
        IS(DSTM_FOREIGN, thrown);
        IS(4, me.counts().begun);
        IS(2, me.counts().committed);
        IS(2, dstm_given_up(me));
        IS(0, dstm_atomically_for(me, 5, [](dstm_thread *, void *) { return DSTM_RETRY; }, nullptr) == DSTM_OK);
        IS(DSTM_OK, dstm_begin(me));
        IS(DSTM_OK, dstm_queue_push_u64(me, queue, 1));
    }
    IS(DSTM_OK, dstm_peek_u64(memory, counter, &n));
    IS(7, n);
    try {
        dstm::memory none(64);
    } catch (const dstm::failed &it) {
        IS(DSTM_RANGE, it.code);
    }
    printf("%s: %d\n", engines[engine], (int)n);
}

int main(int count, char **words) { return for_engines(count, words, test); }
