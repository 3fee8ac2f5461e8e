#!/usr/bin/env python3
"""Writes a workload of a kind that `dstm gen` does not make: workloads.py KIND COUNT WORKERS [SEED]"""
import random
import sys


def hot(rng, count, workers):
    """Each transaction pays into one account, or out of it."""
    yield "bank 64 1000000"
    for i in range(count):
        other = rng.randrange(1, 64)
        source, target = (0, other) if rng.random() < 0.5 else (other, 0)
        yield f"tx {i % workers} transfer {source} {target} {rng.randrange(1, 100)}"


def cold(rng, count, workers):
    """Each worker has accounts of its own, so that no two meet."""
    yield "bank 4096 1000000"
    share = 4096 // workers
    for i in range(count):
        worker = i % workers
        source, target = (worker * share + rng.randrange(share) for _ in range(2))
        yield f"tx {worker} transfer {source} {target} {rng.randrange(1, 100)}"


def tree(rng, count, workers):
    """A tree with room for 65,535 keys, which fills slowly."""
    yield "tree 65535"
    for i in range(count):
        word = rng.choice(["insert", "insert", "remove", "member"])
        yield f"tx {i % workers} {word} tree {rng.randrange(131070)}"


def full(rng, count, workers):
    """A tree that is filled with 65,535 keys, 8 in a transaction, and then changed."""
    yield "tree 65535"
    keys = list(range(0, 131070, 2))
    rng.shuffle(keys)
    for i in range(count):
        batch = keys[8 * i : 8 * i + 8]
        if batch:
            yield f"tx {i % workers} " + " ; ".join(f"insert tree {key}" for key in batch)
        else:
            word = rng.choice(["insert", "remove", "member", "member"])
            yield f"tx {i % workers} {word} tree {rng.randrange(131070)}"


def long(rng, count, workers):
    """Transactions of 8 operations on 1,024 accounts."""
    yield "bank 1024 1000000"
    for i in range(count):
        operations = []
        for _ in range(4):
            operations.append(f"balance {rng.randrange(1024)}")
            operations.append(f"transfer {rng.randrange(1024)} {rng.randrange(1024)} {rng.randrange(1, 100)}")
        yield f"tx {i % workers} " + " ; ".join(operations)


def audit(rng, count, workers):
    """Transfers among 256 accounts; each tenth transaction reads all of them."""
    yield "bank 256 1000000"
    for i in range(count):
        if rng.random() < 0.1:
            yield f"tx {i % workers} total"
        else:
            yield f"tx {i % workers} transfer {rng.randrange(256)} {rng.randrange(256)} {rng.randrange(1, 100)}"


def walk(rng, count, workers):
    """A sorted list of some 256 keys, which each transaction walks along."""
    yield "list 512"
    for i in range(count):
        word = rng.choice(["insert", "remove", "member", "member"])
        yield f"tx {i % workers} {word} list {rng.randrange(512)}"


def audits(rng, count, workers):
    """Of a hundred transactions all but one read 256 accounts, and one is a transfer among them."""
    yield "bank 256 1000000"
    for i in range(count):
        if rng.random() < 0.99:
            yield f"tx {i % workers} total"
        else:
            yield f"tx {i % workers} transfer {rng.randrange(256)} {rng.randrange(256)} {rng.randrange(1, 100)}"


def look(rng, count, workers):
    """A tree that is filled with 32,767 keys, 8 in a transaction; then 8 operations each, of which 98 in a hundred look
    a key up."""
    yield "tree 65535"
    keys = rng.sample(range(0, 131070, 2), 32767)
    for i in range(count):
        batch = [f"insert tree {key}" for key in keys[8 * i : 8 * i + 8]]
        while len(batch) < 8:
            word = "member" if rng.random() < 0.98 else rng.choice(["insert", "remove"])
            batch.append(f"{word} tree {rng.randrange(131070)}")
        yield f"tx {i % workers} " + " ; ".join(batch)


def read(rng, count, workers):
    """Transactions that read 8 of 1,024 accounts, or 7 and make a transfer: one in fifty."""
    yield "bank 1024 1000000"
    for i in range(count):
        operations = [f"balance {account}" for account in rng.sample(range(1024), 8)]
        if rng.random() < 0.02:
            operations[-1] = f"transfer {rng.randrange(1024)} {rng.randrange(1024)} {rng.randrange(1, 100)}"
        yield f"tx {i % workers} " + " ; ".join(operations)


def reserve(rng, count, workers):
    """A tree that is filled with 16,384 keys; then 6 look-ups in it and 2 payments among 4,096 accounts each, as those
    who reserve do."""
    yield "bank 4096 1000000\ntree 65535"
    keys = rng.sample(range(0, 131070, 2), 16384)
    for i in range(count):
        batch = [f"insert tree {key}" for key in keys[8 * i : 8 * i + 8]]
        if not batch:
            batch = [f"member tree {rng.randrange(131070)}" for _ in range(6)]
            for _ in range(2):
                batch.append(f"transfer {rng.randrange(4096)} {rng.randrange(4096)} {rng.randrange(1, 100)}")
        yield f"tx {i % workers} " + " ; ".join(batch)


LOADS = (hot, cold, tree, full, long, audit, walk, audits, look, read, reserve)
KINDS = {kind.__name__: kind for kind in LOADS}


def text_of(kind, count, workers, seed=7):
    lines = KINDS[kind](random.Random(seed), count, workers)
    declaration = next(lines)
    return "\n".join(["dstm 1", f"workers {workers}", declaration, *lines]) + "\n"


if __name__ == "__main__":
    if len(sys.argv) not in (4, 5) or sys.argv[1] not in KINDS:
        sys.exit(f"usage: workloads.py {'|'.join(KINDS)} COUNT WORKERS [SEED]")
    sys.stdout.write(text_of(sys.argv[1], *map(int, sys.argv[2:])))
