"""A transactional memory for the threads of a Python program: libdstm.so by ctypes. dstm.h says what its calls promise.

    with dstm.Memory(4) as memory:                  # at most 4 threads at once
        counter = memory.cell(0)                    # a number below 2 ** 128
        with memory.part() as me:                   # a part for each thread
            me.atomically(lambda tx: tx.set(counter, tx.get(counter) + 1))
        assert memory.peek(counter) == 1

DSTM_LIB names the folder of libdstm.so; else it is c/out. By DSTM a part is spent after 65,536 attempts: Failed(2)."""
import ctypes
import functools
import os
import threading
import time

OK, AGAIN, SPENT, FOREIGN, IDLE, OPEN, CLOSED, TAKEN, BUSY, FULL, MEMORY, RANGE = range(12)
TL2, POLKA, KARMA, POLITE, GREEDY = range(5)


class Handle(ctypes.Structure):
    _fields_ = [("at", ctypes.c_void_p), ("state", ctypes.c_uint64)]
    __enter__ = lambda self: self
    __exit__ = lambda self, *_: self.free()


# What each call takes: h is a handle, n and w are numbers of 32 and 64 bits, and N and W are where it tells one.
TYPES = {"h": Handle, "n": ctypes.c_uint32, "w": ctypes.c_uint64, "N": ctypes.c_uint32, "W": ctypes.c_uint64}
CALLS = dict(memory_new="hnn", memory_free="h", cell_new="hwwN", peek="hnWW", thread_new="hh", thread_free="h", turn="hn")
CALLS.update(begin="h", get="hnWW", set="hnww", commit="h", abort="h", look="h")
CALLS.update(queue_new="hnN", queue_try_push="hnnwwN", queue_try_pop="hnnNWW", queue_len="hnnN")
CALLS.update(map_new="hnN", map_get="hnnwNWW", map_put="hnnwwwNWW", map_remove="hnnwNWW", map_len="hnnN")
CALLS.update({f"ordered_{name[4:]}": types for name, types in CALLS.items() if name.startswith("map_")})
CALLS.update({f"ordered_{name}": "hnnNWWW" for name in ("first", "last", "pop_first", "pop_last")})
CALLS.update(ordered_next_above="hnnwNWWW", ordered_next_below="hnnwNWWW")
lib = ctypes.CDLL(os.path.join(os.environ.get("DSTM_LIB", f"{os.path.dirname(__file__)}/../out"), "libdstm.so"))
for name, letters in CALLS.items():
    getattr(lib, f"dstmc_{name}").argtypes = [TYPES[it] if it in "nw" else ctypes.POINTER(TYPES[it]) for it in letters]
words = lambda number: (number & (1 << 64) - 1, number >> 64)
number_of = lambda low, high: low | high << 64


class Failed(Exception):
    """A call has answered this code."""


class Again(Exception):
    """The transaction is lost, since another one came between: no body catches it."""


class Retry(Exception):
    """A body cannot go on with what it has read, and is called again once something of that may have changed."""


def call(name, *given):
    """Calls the library, and returns what it has told."""
    told = [TYPES[it]() for it in CALLS[name] if it in "NW"]
    code = getattr(lib, f"dstmc_{name}")(*given, *map(ctypes.byref, told))
    if code:
        raise Again() if code == AGAIN else Failed(code)
    return [it.value for it in told]


class Memory(Handle):
    """Cells, in which so many threads may have parts at once."""

    def __init__(self, threads, engine=TL2):
        call("memory_new", self, threads, engine)
        self.lock = threading.Lock()  # one thread at a time uses a memory

    free = lambda self: lib.dstmc_memory_free(self) and None
    cell = lambda self, number=0: call("cell_new", self, *words(number))[0]
    peek = lambda self, cell: number_of(*call("peek", self, cell))  # while no thread has a part
    part = lambda self: Part(self)


class Part(Handle):
    """A thread's part in a memory, and the transaction that it has under way."""

    def __init__(self, memory):
        with memory.lock:
            call("thread_new", memory, self)

    free = lambda self: lib.dstmc_thread_free(self) and None
    get = lambda self, cell: number_of(*call("get", self, cell))
    set = lambda self, cell, number: call("set", self, cell, *words(number)) and None

    def atomically(self, body, looks=20000):
        """Calls a function with the transaction until that has taken effect, and returns its answer."""
        lost = 0
        while True:
            while lib.dstmc_turn(self, lost) == AGAIN:
                time.sleep(0)
            call("begin", self)
            try:
                answer = body(self)
                call("commit", self)
                return answer
            except Again:
                lost = min(lost + 1, 8)
            except BaseException as why:
                lost = 0
                if not isinstance(why, Retry) or not any(time.sleep(0) or lib.dstmc_look(self) for _ in range(looks)):
                    lib.dstmc_abort(self)
                    raise


class Structure:
    """A name of what is made of cells. A call on it is a part of a transaction, which is its first argument."""

    def __init__(self, memory, capacity):
        (self.first_cell,), self.capacity = call(f"{self.kind}_new", memory, capacity), capacity

    def told(self, name, tx, *given):
        there, *key, low, high = self.call(name, tx, *given)
        return None if not there else (*key, number_of(low, high)) if key else number_of(low, high)

    call = lambda self, name, tx, *given: call(f"{self.kind}_{name}", tx, self.first_cell, self.capacity, *given)
    len = lambda self, tx: self.call("len", tx)[0]


class Queue(Structure):
    """Numbers, first in, first out. Who puts one in waits for room, and who takes one out waits for one."""

    kind = "queue"

    def push(self, tx, number):
        if not self.call("try_push", tx, *words(number))[0]:
            raise Retry

    def pop(self, tx):
        first = self.told("try_pop", tx)
        if first is None:
            raise Retry
        return first


class Map(Structure):
    """A hash map. put tells 0 of a key that was not there, 1 of one that was, and 2 where there is no room for it."""

    kind = "map"
    get = lambda self, tx, key: self.told("get", tx, key)
    remove = lambda self, tx, key: self.told("remove", tx, key)
    put = lambda self, tx, key, number: self.call("put", tx, key, *words(number))[0]


class OrderedMap(Map):
    """The same; by the order of its keys it tells a key with its number, or None: first(tx), next_above(tx, bound) .."""

    kind = "ordered"
    __getattr__ = lambda self, name: functools.partial(self.told, name)
