"""structures.py ENGINE: a queue and maps of Python's, beside its own, and between threads."""
import random
import sys
import threading

import dstm

KEYS, EACH, ROOM = range(0, 20 << 40, 1 << 40), 300, 12
engine, chance = int(sys.argv[1]), random.Random(1)


class GivenUp(Exception):
    pass


def beside_a_dict(tx, each, plain):
    """Calls by chance, on a map and on a dict."""
    for _ in range(chance.randrange(12)):
        key, number = chance.choice(KEYS), chance.getrandbits(128)
        kind = chance.randrange(4)
        if kind == 0:
            assert each.get(tx, key) == plain.get(key)
        elif kind == 1:
            assert each.remove(tx, key) == plain.pop(key, None)
        elif key not in plain and len(plain) == ROOM:
            assert each.put(tx, key, number) == 2
        else:
            assert each.put(tx, key, number) == (key in plain)
            plain[key] = number
    assert each.len(tx) == len(plain)


def beside_a_sorted_dict(tx, each, plain):
    """The same on an ordered map, with calls by the order of the keys."""
    for _ in range(chance.randrange(4)):
        beside_a_dict(tx, each, plain)
        keys, bound = sorted(plain), chance.choice(KEYS)
        item = lambda found: (found[0], plain[found[0]]) if found else None
        assert each.first(tx) == item(keys) and each.last(tx) == item(keys[::-1])
        assert each.next_above(tx, bound) == item([key for key in keys if key > bound])
        assert each.next_below(tx, bound) == item([key for key in keys[::-1] if key < bound])
        name, at = chance.choice([("pop_first", 0), ("pop_last", -1)])
        assert getattr(each, name)(tx) == item(keys[at:][:1])
        plain.pop(keys[at], None) if keys else None


def alone(me, each, check):
    plain = {}

    def body(tx):
        check(tx, each, trial)
        if chance.randrange(4) == 0:
            raise GivenUp

    for _ in range(EACH):
        trial = dict(plain)
        try:
            me.atomically(body)
            plain = trial
        except GivenUp:
            pass


def together(memory, works):
    """Runs each of these with a part of its own."""
    with memory.part() as one, memory.part() as two, memory.part() as three:
        threads = [threading.Thread(target=work, args=[me]) for work, me in zip(works, (one, two, three))]
        for thread in threads:
            thread.start()
        for thread in threads:
            thread.join()


def waiting(me, body):
    """Calls a body until something has changed, where nothing has for long."""
    while True:
        try:
            return me.atomically(body)
        except dstm.Retry:
            pass


def producer(me):
    for number in range(EACH):
        waiting(me, lambda tx: queue.push(tx, number << 70))


def consumer(me):
    for _ in range(EACH):
        taken.append(waiting(me, queue.pop))


def move(tx, key):
    """Moves a key to the map in which it is not."""
    number, to = here.remove(tx, key), there
    if number is None:
        number, to = there.remove(tx, key), here
    assert to.put(tx, key, number) == 0


def mover(me):
    for n in range(EACH):
        key = KEYS[n * 7 % len(KEYS)]
        me.atomically(lambda tx: move(tx, key))


def sum_of(tx):
    return sum((here.get(tx, key) or 0) + (there.get(tx, key) or 0) for key in KEYS)


def auditor(me):
    for _ in range(EACH // 10):
        assert me.atomically(sum_of) == sum(KEYS)
    audits.append(True)


with dstm.Memory(3, engine) as memory:
    queue, small, here, there = dstm.Queue(memory, 4), dstm.Map(memory, ROOM), dstm.Map(memory, 40), dstm.Map(memory, 40)
    ordered, taken, audits = dstm.OrderedMap(memory, ROOM), [], []
    with memory.part() as me:
        alone(me, small, beside_a_dict)
        alone(me, ordered, beside_a_sorted_dict)
        for key in KEYS:
            me.atomically(lambda tx: here.put(tx, key, key))
    together(memory, [producer, consumer, lambda me: None])
    assert taken == [number << 70 for number in range(EACH)]
    together(memory, [mover, mover, auditor])
    with memory.part() as me:
        assert audits and me.atomically(sum_of) == sum(KEYS)
        assert me.atomically(lambda tx: here.len(tx) + there.len(tx)) == len(KEYS)
try:
    dstm.Memory(64)
except dstm.Failed as why:
    assert why.args == (dstm.RANGE,)
print("done")
