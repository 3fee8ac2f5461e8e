"""counter.py ENGINE: four threads of Python add to a counter by transactions: 4000."""
import sys
import threading

import dstm


def work(me, counter):
    for _ in range(1000):
        me.atomically(lambda tx: tx.set(counter, tx.get(counter) + 1))


with dstm.Memory(4, int(sys.argv[1])) as memory:
    counter = memory.cell(0)
    parts = [memory.part() for _ in range(4)]
    threads = [threading.Thread(target=work, args=[me, counter]) for me in parts]
    for thread in threads:
        thread.start()
    for thread, me in zip(threads, parts):
        thread.join()
        me.free()
    print(memory.peek(counter))
