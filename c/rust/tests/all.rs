use dstm::{Cell, Counts, Engine, Error, Failure, Halt, HashMap, Inserted, Memory, Placed, Stop, Thread, Tx, Word};
use std::collections::{BTreeMap, BTreeSet, HashMap as Plain};
use std::panic::{catch_unwind, AssertUnwindSafe};
use std::thread::{scope, ScopedJoinHandle};

const ENGINES: [Engine; 5] = [Engine::Tl2, Engine::Polka, Engine::Karma, Engine::Polite, Engine::Greedy];

// What threads answer, each of which is waited for by itself.
fn joined<T>(threads: Vec<ScopedJoinHandle<'_, T>>) -> Vec<T> {
    threads.into_iter().map(|it| it.join().unwrap()).collect()
}

#[test]
fn four_threads_count() {
    for engine in ENGINES {
        let mut memory = Memory::with_engine(4, engine).unwrap();
        let counter = memory.cell(0u64).unwrap();
        scope(|s| {
            let count = |_| {
                let mut me = memory.thread().unwrap();
                s.spawn(move || {
                    for _ in 0..5_000 {
                        me.atomically(|tx| tx.update(counter, |n| n + 1)).unwrap();
                    }
                })
            };
            joined((0..4).map(count).collect())
        });
        assert_eq!(memory.get(counter), Ok(20_000));
    }
}

#[test]
#[ignore = "it takes seconds"]
fn four_threads_make_a_million_transactions_each() {
    let mut memory = Memory::new(4).unwrap();
    let counter = memory.cell(0u64).unwrap();
    scope(|s| {
        for _ in 0..4 {
            let mut me = memory.thread().unwrap();
            s.spawn(move || {
                for _ in 0..1_000_000 {
                    me.atomically(|tx| tx.update(counter, |n| n + 1)).unwrap();
                }
            });
        }
    });
    assert_eq!(memory.get(counter), Ok(4_000_000));
}

#[test]
fn parts_come_and_go() {
    for engine in ENGINES {
        let mut memory = Memory::with_engine(2, engine).unwrap();
        let mut cells = vec![memory.cell(0u64).unwrap()];
        for round in 1..=20 {
            let mut a = memory.thread().unwrap();
            let mut b = memory.thread().unwrap();
            assert_eq!(memory.thread().err(), Some(Error::Full));
            for me in [&mut a, &mut b] {
                me.atomically(|tx| tx.update(cells[0], |n| n + 1)).unwrap();
            }
            // One that is given up in the middle of a transaction keeps nobody from committing.
            let gone = a.atomically(|tx| {
                tx.set(cells[0], 77)?;
                Err::<(), _>(Stop::Failed(Error::Range))
            });
            assert_eq!(gone, Err(Error::Range));
            drop(a);
            b.atomically(|tx| tx.update(cells[0], |n| n + 1)).unwrap();
            drop(b);
            assert_eq!(memory.get(cells[0]), Ok(3 * round));
            cells.push(memory.cell(round).unwrap());
        }
        for (round, cell) in (1..).zip(&cells[1..]) {
            assert_eq!(memory.get(*cell), Ok(round));
        }
    }
}

#[test]
fn a_part_of_tl2_has_no_end_and_a_spent_one_is_renewed() {
    for engine in [Engine::Tl2, Engine::Polka] {
        let mut memory = Memory::with_engine(3, engine).unwrap();
        let counter = memory.cell(0u64).unwrap();
        let mut me = memory.thread().unwrap();
        for _ in 0..300_000 {
            me.atomically(|tx| tx.update(counter, |n| n + 1)).unwrap();
        }
        drop(me);
        assert_eq!(memory.get(counter), Ok(300_000));
    }
}

#[test]
fn the_total_is_always_right() {
    for engine in ENGINES {
        let mut memory = Memory::with_engine(5, engine).unwrap();
        let accounts: Vec<Cell<u64>> = (0..16).map(|_| memory.cell(100u64).unwrap()).collect();
        let accounts = &accounts[..];
        scope(|s| {
            let mut threads = vec![];
            for n in 0..4u64 {
                let mut me = memory.thread().unwrap();
                threads.push(s.spawn(move || {
                    for i in 0..2_000 {
                        let (from, to) = ((i * 7 + n) as usize % 16, (i * 11 + 3 * n) as usize % 16);
                        let moved = me.atomically(|tx| {
                            let has = tx.get(accounts[from])?;
                            if has >= 5 {
                                tx.set(accounts[from], has - 5)?;
                                tx.update(accounts[to], |n| n + 5)?;
                            }
                            Ok(())
                        });
                        assert_eq!(moved, Ok(()));
                    }
                }));
            }
            let mut me = memory.thread().unwrap();
            threads.push(s.spawn(move || {
                for _ in 0..200 {
                    let all = me.atomically(|tx| {
                        let mut all = 0;
                        for account in accounts {
                            all += tx.get(*account)?;
                        }
                        Ok(all)
                    });
                    assert_eq!(all, Ok(1600));
                }
            }));
            joined(threads)
        });
    }
}

fn put(tx: &mut Tx<'_, '_>, slot: Cell<Option<u64>>, n: u64) -> Result<(), Stop> {
    let empty = tx.get(slot)?.is_none();
    tx.ensure(empty)?;
    tx.set(slot, Some(n))
}

fn take(tx: &mut Tx<'_, '_>, slot: Cell<Option<u64>>) -> Result<u64, Stop> {
    match tx.get(slot)? {
        None => tx.retry(),
        Some(n) => {
            tx.set(slot, None)?;
            Ok(n)
        }
    }
}

#[test]
fn one_waits_for_the_other() {
    for engine in ENGINES {
        let mut memory = Memory::with_engine(2, engine).unwrap();
        let slot = memory.cell(None::<u64>).unwrap();
        scope(|s| {
            let (mut a, mut b) = (memory.thread().unwrap(), memory.thread().unwrap());
            // It waits again where nothing has changed for long, as on a machine that does much else.
            let putting = s.spawn(move || {
                for n in 0..500 {
                    while a.atomically(|tx| put(tx, slot, n)) == Err(Error::Idle) {}
                }
            });
            let taking = s.spawn(move || {
                for n in 0..500 {
                    let taken = loop {
                        match b.atomically(|tx| take(tx, slot)) {
                            Err(Error::Idle) => {}
                            taken => break taken,
                        }
                    };
                    assert_eq!(taken, Ok(n));
                }
            });
            joined(vec![putting, taking])
        });
    }
}

// Waits again where nothing has changed for long, as on a machine that does much else.
fn wait_for<'m, R>(me: &mut Thread<'m>, mut f: impl FnMut(&mut Tx<'_, 'm>) -> Result<R, Stop>) -> R {
    loop {
        match me.atomically(&mut f) {
            Err(Error::Idle) => {}
            answer => return answer.unwrap(),
        }
    }
}

#[test]
fn each_number_comes_out_of_a_bounded_queue_once() {
    const EACH: u64 = 400;
    for engine in ENGINES {
        let mut memory = Memory::with_engine(4, engine).unwrap();
        let queue = memory.queue(8).unwrap();
        let seen = scope(|s| {
            let producer = |first| {
                let mut me = memory.thread().unwrap();
                s.spawn(move || {
                    for n in first..first + EACH {
                        wait_for(&mut me, |tx| queue.push(tx, n));
                    }
                })
            };
            let consumer = || {
                let mut me = memory.thread().unwrap();
                s.spawn(move || -> Vec<u64> {
                    (0..EACH).map(|_| wait_for(&mut me, |tx| queue.pop(tx))).collect()
                })
            };
            let (producers, consumers) = (vec![producer(0), producer(EACH)], vec![consumer(), consumer()]);
            joined(producers);
            joined(consumers)
        });
        // What one producer has put in comes out in its order.
        for taken in &seen {
            for of in [0..EACH, EACH..2 * EACH] {
                assert!(taken.iter().filter(|n| of.contains(n)).is_sorted());
            }
        }
        let mut all = seen.concat();
        all.sort_unstable();
        assert_eq!(all, (0..2 * EACH).collect::<Vec<u64>>());
    }
}

// Threads that hand a turn over, so often each.
fn hand_over(engine: Engine, threads: u64, each: u64) {
    let mut memory = Memory::with_engine(threads as u32, engine).unwrap();
    let turn = memory.cell(0u64).unwrap();
    scope(|s| {
        let hands_over = |n| {
            let mut me = memory.thread().unwrap();
            s.spawn(move || {
                for at in (n..threads * each).step_by(threads as usize) {
                    wait_for(&mut me, |tx| {
                        let here = tx.get(turn)? == at;
                        tx.ensure(here)?;
                        tx.set(turn, at + 1)
                    });
                }
            })
        };
        joined((0..threads).map(hands_over).collect())
    });
    assert_eq!(memory.get(turn), Ok(threads * each));
}

#[test]
fn no_turn_is_lost() {
    // One that spins hands over once in a slice of time, on a machine that does much else.
    let times = if cfg!(feature = "std") { 1_000 } else { 20 };
    for engine in ENGINES {
        hand_over(engine, 2, times);
        hand_over(engine, 8, times / 5);
    }
}

#[test]
#[ignore = "it takes long in a debug build"]
fn no_turn_of_very_many_is_lost() {
    hand_over(Engine::Tl2, 2, 100_000);
}

#[cfg(feature = "std")]
#[test]
fn who_waits_is_woken_and_waits_for_so_long_at_most() {
    use std::thread::sleep;
    use std::time::{Duration, Instant};
    for engine in ENGINES {
        let mut memory = Memory::with_engine(2, engine).unwrap();
        let slot = memory.cell(None::<u64>).unwrap();
        let (mut a, mut b) = (memory.thread().unwrap(), memory.thread().unwrap());
        let begun = Instant::now();
        let patience = Duration::from_millis(30);
        assert_eq!(a.atomically_within(patience, |tx| take(tx, slot)), Err(Error::Idle));
        assert!(begun.elapsed() >= patience);
        assert_eq!(a.atomically_within(Duration::ZERO, |tx| take(tx, slot)), Err(Error::Idle));
        // By itself it would look some 80 ms later.
        let soon = (0..9).filter(|&n| {
            scope(|s| {
                let woken = s.spawn(|| {
                    assert_eq!(wait_for(&mut a, |tx| take(tx, slot)), n);
                    Instant::now()
                });
                sleep(Duration::from_millis(150));
                let put_in = Instant::now();
                b.atomically(|tx| put(tx, slot, n)).unwrap();
                woken.join().unwrap() - put_in < Duration::from_millis(40)
            })
        });
        assert!(soon.count() > 0);
    }
}

#[test]
fn the_first_one_into_a_queue_is_the_first_one_out() {
    let mut memory = Memory::new(1).unwrap();
    assert_eq!(memory.queue::<u64>(0).err(), Some(Error::Range));
    let queue = memory.queue::<Option<u64>>(3).unwrap();
    assert_eq!(queue.capacity(), 3);
    let mut me = memory.thread().unwrap();
    for round in 0..5 {
        let ends = me.atomically(|tx| {
            assert_eq!((queue.len(tx)?, queue.front(tx)?, queue.try_pop(tx)?), (0, None, None));
            for n in 0..3 {
                queue.push(tx, Some(round + n))?;
            }
            assert!(!queue.try_push(tx, None)?);
            assert_eq!((queue.len(tx)?, queue.front(tx)?), (3, Some(Some(round))));
            // What is put in by an alternative that retries is not there.
            tx.or_else(
                |tx| {
                    queue.pop(tx)?;
                    queue.push(tx, None)?;
                    queue.push(tx, None)
                },
                |_| Ok(()),
            )?;
            assert_eq!((queue.pop(tx)?, queue.pop(tx)?), (Some(round), Some(round + 1)));
            queue.pop(tx)
        });
        assert_eq!(ends, Ok(Some(round + 2)));
    }
}

#[test]
fn no_cell_of_a_pool_is_in_two_places_or_lost() {
    type Node = (u64, u64);
    const CELLS: u32 = 5;
    for engine in ENGINES {
        let mut memory = Memory::with_engine(3, engine).unwrap();
        let pool = memory.pool::<Node>(CELLS).unwrap();
        // The cells that were taken, with a number in each.
        let slots: Vec<Cell<u64>> = (0..CELLS).map(|_| memory.cell(0u64).unwrap()).collect();
        let other = memory.pool::<Node>(1).unwrap();
        let mut cells = vec![];
        {
            let mut me = memory.thread().unwrap();
            for n in 0..u64::from(CELLS) {
                cells.push(me.atomically(|tx| pool.take(tx, (n, n + 1))).unwrap());
            }
            assert!(me.atomically(|tx| pool.try_take(tx, (0, 0))).unwrap().is_none());
            let (cell, foreign) = (cells[0], me.atomically(|tx| other.take(tx, (0, 0))).unwrap());
            assert_eq!(me.atomically(|tx| pool.give(tx, foreign)), Err(Error::Foreign));
            assert_eq!(me.atomically(|tx| other.give(tx, cell)), Err(Error::Foreign));
            for (n, cell) in (0..).zip(&cells) {
                assert_eq!(me.atomically(|tx| tx.get(*cell)), Ok((n, n + 1)));
                me.atomically(|tx| pool.give(tx, *cell)).unwrap();
            }
            assert_eq!(me.atomically(|tx| pool.give(tx, cell)), Err(Error::Foreign));
        }
        let (cells, slots) = (&cells[..], &slots[..]);
        scope(|s| {
            let take_and_give = |number: u64| {
                let mut me = memory.thread().unwrap();
                s.spawn(move || {
                    for _ in 0..500 {
                        let taken = wait_for(&mut me, |tx| {
                            let cell = pool.take(tx, (number, 0))?;
                            let at = cells.iter().position(|it| *it == cell).unwrap();
                            assert_eq!(tx.update(slots[at], |_| number)?, 0);
                            Ok((cell, at))
                        });
                        wait_for(&mut me, |tx| {
                            assert_eq!(tx.update(slots[taken.1], |_| 0)?, number);
                            assert_eq!(tx.get(taken.0)?, (number, 0));
                            pool.give(tx, taken.0)
                        });
                    }
                })
            };
            joined((1..=3).map(take_and_give).collect())
        });
        let mut me = memory.thread().unwrap();
        for _ in 0..CELLS {
            me.atomically(|tx| pool.take(tx, (0, 0))).unwrap();
        }
        assert!(me.atomically(|tx| pool.try_take(tx, (0, 0))).unwrap().is_none());
    }
}

// Numbers that look as if they came by chance, the same ones each time.
struct Chance(u64);

impl Chance {
    fn next(&mut self) -> u64 {
        self.0 = self.0.wrapping_mul(6_364_136_223_846_793_005).wrapping_add(1_442_695_040_888_963_407);
        self.0 >> 33
    }

    fn below(&mut self, most: u64) -> u64 {
        self.next() % most
    }
}

#[test]
fn a_map_does_what_a_plain_one_does() {
    const ROOM: usize = 12;
    for engine in [Engine::Tl2, Engine::Polka] {
        let mut memory = Memory::with_engine(1, engine).unwrap();
        assert_eq!(memory.map::<u64>(0).err(), Some(Error::Range));
        let map = memory.map::<Option<u64>>(ROOM as u32).unwrap();
        let mut me = memory.thread().unwrap();
        let (mut plain, mut chance) = (Plain::new(), Chance(1));
        for _ in 0..2_000 {
            let mut trial = plain.clone();
            let is_given_up = chance.below(4) == 0;
            let ended = me.atomically(|tx| {
                for _ in 0..chance.below(12) {
                    let (key, value) = (chance.below(20) << 30, Some(chance.next()));
                    assert_eq!(map.contains(tx, key)?, trial.contains_key(&key));
                    match chance.below(4) {
                        0 => assert_eq!(map.remove(tx, key)?, trial.remove(&key)),
                        1 => assert_eq!(map.get(tx, key)?, trial.get(&key).copied()),
                        _ if trial.len() == ROOM && !trial.contains_key(&key) => {
                            assert_eq!(map.put(tx, key, value)?, Placed::Full);
                        }
                        _ => {
                            let placed = trial.insert(key, value).map_or(Placed::New, Placed::Instead);
                            assert_eq!(map.put(tx, key, value)?, placed);
                        }
                    }
                }
                assert_eq!(map.len(tx)?, trial.len() as u64);
                if is_given_up { Err(Stop::Failed(Error::Range)) } else { Ok(()) }
            });
            if ended.is_ok() {
                plain = trial;
            }
        }
    }
}

// Moves a key to the map in which it is not.
fn move_over(tx: &mut Tx<'_, '_>, maps: [HashMap<u64>; 2], key: u64) -> Result<(), Stop> {
    let at = usize::from(maps[0].contains(tx, key)?);
    let value = maps[1 - at].remove(tx, key)?.unwrap();
    assert_eq!(maps[at].put(tx, key, value)?, Placed::New);
    Ok(())
}

#[test]
fn each_key_is_in_one_of_two_maps() {
    const KEYS: u64 = 10;
    for engine in ENGINES {
        let mut memory = Memory::with_engine(4, engine).unwrap();
        let maps = [memory.map(2 * KEYS as u32).unwrap(), memory.map(2 * KEYS as u32).unwrap()];
        let mut first = memory.thread().unwrap();
        for key in 0..KEYS {
            first.atomically(|tx| maps[1].put(tx, key, 7 * key)).unwrap();
        }
        scope(|s| {
            let mover = |seed| {
                let mut me = memory.thread().unwrap();
                s.spawn(move || {
                    let mut chance = Chance(seed);
                    for _ in 0..500 {
                        let key = chance.below(KEYS);
                        me.atomically(|tx| move_over(tx, maps, key)).unwrap();
                    }
                })
            };
            let movers = (1..4).map(mover).collect();
            for _ in 0..50 {
                let there = first.atomically(|tx| {
                    let mut sum = 0;
                    for key in 0..KEYS {
                        let found = (maps[0].get(tx, key)?, maps[1].get(tx, key)?);
                        sum += found.0.xor(found.1).unwrap();
                    }
                    Ok(sum)
                });
                assert_eq!(there, Ok(7 * (KEYS - 1) * KEYS / 2));
            }
            joined(movers)
        });
    }
}

#[test]
fn an_ordered_map_does_what_a_plain_one_does() {
    const ROOM: usize = 12;
    for engine in [Engine::Tl2, Engine::Polka] {
        let mut memory = Memory::with_engine(1, engine).unwrap();
        let map = memory.ordered_map::<i64>(ROOM as u32).unwrap();
        let mut me = memory.thread().unwrap();
        let (mut plain, mut chance) = (BTreeMap::new(), Chance(1));
        for _ in 0..2_000 {
            let mut trial: BTreeMap<u64, i64> = plain.clone();
            let is_given_up = chance.below(4) == 0;
            let ended = me.atomically(|tx| {
                for _ in 0..chance.below(12) {
                    let (key, value) = (u64::MAX >> (3 * chance.below(21)), -(chance.next() as i64));
                    let pair = |(key, value): (&u64, &i64)| (*key, *value);
                    match chance.below(12) {
                        0 => assert_eq!(map.remove(tx, key)?, trial.remove(&key)),
                        1 => assert_eq!(map.get(tx, key)?, trial.get(&key).copied()),
                        2 => assert_eq!(map.contains(tx, key)?, trial.contains_key(&key)),
                        3 => assert_eq!(map.first(tx)?, trial.iter().next().map(pair)),
                        4 => assert_eq!(map.last(tx)?, trial.iter().next_back().map(pair)),
                        5 => assert_eq!(map.pop_first(tx)?, trial.pop_first()),
                        6 => assert_eq!(map.pop_last(tx)?, trial.pop_last()),
                        7 => assert_eq!(map.next_below(tx, key)?, trial.range(..key).next_back().map(pair)),
                        8 => {
                            let next = trial.range(key..).find(|it| *it.0 > key);
                            assert_eq!(map.next_above(tx, key)?, next.map(pair));
                        }
                        _ if trial.len() == ROOM && !trial.contains_key(&key) => {
                            assert_eq!(map.put(tx, key, value)?, Placed::Full);
                        }
                        _ => {
                            let placed = trial.insert(key, value).map_or(Placed::New, Placed::Instead);
                            assert_eq!(map.put(tx, key, value)?, placed);
                        }
                    }
                }
                assert_eq!(map.len(tx)?, trial.len() as u64);
                let from = u64::MAX >> chance.below(64);
                let found: Vec<(u64, i64)> = map.scan(tx, from).collect::<Result<_, _>>()?;
                assert!(found.iter().copied().eq(trial.range(from..).map(|it| (*it.0, *it.1))));
                if is_given_up { Err(Stop::Failed(Error::Range)) } else { Ok(()) }
            });
            if ended.is_ok() {
                plain = trial;
            }
        }
    }
}

#[test]
fn a_set_does_what_a_plain_one_does() {
    const ROOM: usize = 12;
    for engine in [Engine::Tl2, Engine::Polka] {
        let mut memory = Memory::with_engine(1, engine).unwrap();
        let set = memory.ordered_set(ROOM as u32).unwrap();
        let mut me = memory.thread().unwrap();
        let (mut plain, mut chance) = (BTreeSet::new(), Chance(1));
        for _ in 0..2_000 {
            let mut trial: BTreeSet<u64> = plain.clone();
            let is_given_up = chance.below(4) == 0;
            let ended = me.atomically(|tx| {
                for _ in 0..chance.below(12) {
                    let key = u64::MAX >> (3 * chance.below(21));
                    match chance.below(12) {
                        0 => assert_eq!(set.remove(tx, key)?, trial.remove(&key)),
                        1 => assert_eq!(set.contains(tx, key)?, trial.contains(&key)),
                        2 => assert_eq!(set.first(tx)?, trial.first().copied()),
                        3 => assert_eq!(set.last(tx)?, trial.last().copied()),
                        4 => assert_eq!(set.pop_first(tx)?, trial.pop_first()),
                        5 => assert_eq!(set.pop_last(tx)?, trial.pop_last()),
                        6 => assert_eq!(set.next_below(tx, key)?, trial.range(..key).next_back().copied()),
                        7 => {
                            let next = trial.range(key..).find(|it| **it > key);
                            assert_eq!(set.next_above(tx, key)?, next.copied());
                        }
                        _ => {
                            let inserted = match trial.len() {
                                _ if trial.contains(&key) => Inserted::There,
                                ROOM => Inserted::Full,
                                _ => Inserted::New,
                            };
                            assert_eq!(set.insert(tx, key)?, inserted);
                            if inserted == Inserted::New {
                                trial.insert(key);
                            }
                        }
                    }
                }
                assert_eq!(set.len(tx)?, trial.len() as u64);
                let from = u64::MAX >> chance.below(64);
                let found: Vec<u64> = set.scan(tx, from).collect::<Result<_, _>>()?;
                assert!(found.iter().eq(trial.range(from..)));
                if is_given_up { Err(Stop::Failed(Error::Range)) } else { Ok(()) }
            });
            if ended.is_ok() {
                plain = trial;
            }
        }
    }
}

#[test]
fn a_structure_of_another_memory_is_told() {
    let mut memory = Memory::new(1).unwrap();
    let mut other = Memory::new(1).unwrap();
    let (map, queue) = (other.map::<u64>(2).unwrap(), other.queue::<u64>(2).unwrap());
    memory.map::<u64>(9).unwrap();
    let mut me = memory.thread().unwrap();
    assert_eq!(me.atomically(|tx| map.put(tx, 1, 1)), Err(Error::Foreign));
    assert_eq!(me.atomically(|tx| queue.try_pop(tx)), Err(Error::Foreign));
}

#[test]
fn what_the_first_alternative_has_set_is_undone() {
    for engine in ENGINES {
        let mut memory = Memory::with_engine(1, engine).unwrap();
        let (a, b) = (memory.cell((1u64, 2u64)).unwrap(), memory.cell(5i64).unwrap());
        let mut me = memory.thread().unwrap();
        let went = me.atomically(|tx| {
            tx.set(b, -6)?;
            tx.or_else(
                |tx| {
                    tx.set(a, (7, 8))?;
                    tx.set(b, -9)?;
                    tx.or_else(
                        |tx| {
                            tx.set(a, (0, 0))?;
                            tx.retry()
                        },
                        |tx| {
                            assert_eq!((tx.get(a)?, tx.get(b)?), ((7, 8), -9));
                            tx.retry::<u8>()
                        },
                    )
                },
                |tx| {
                    assert_eq!((tx.get(a)?, tx.get(b)?), ((1, 2), -6));
                    Ok(2)
                },
            )
        });
        assert_eq!(went, Ok(2));
        drop(me);
        assert_eq!((memory.get(a), memory.get(b)), (Ok((1, 2)), Ok(-6)));
    }
}

#[test]
fn a_closure_that_is_told_so_elsewhere_ends() {
    for engine in ENGINES {
        let mut first = Memory::with_engine(2, engine).unwrap();
        let mut second = Memory::with_engine(1, engine).unwrap();
        let (x, y) = (first.cell(0u64).unwrap(), first.cell(0u64).unwrap());
        let z = second.cell(0u64).unwrap();
        let (mut outer, mut other) = (first.thread().unwrap(), first.thread().unwrap());
        let mut inner = second.thread().unwrap();
        let mut calls = 0;
        let sum = outer.atomically(|tx| {
            let n = tx.get(x)?;
            calls += 1;
            if calls == 1 {
                let both = |tx: &mut Tx<'_, '_>| {
                    tx.set(x, 1)?;
                    tx.set(y, 1)
                };
                assert_eq!(other.atomically(both), Ok(()));
            }
            let within = inner.atomically(|within| {
                within.set(z, 7)?;
                tx.get(y)
            });
            match within {
                Ok(m) => Ok(n + m),
                Err(Error::Elsewhere) => Err(Stop::Again),
                Err(error) => Err(Stop::Failed(error)),
            }
        });
        assert_eq!((sum, calls), (Ok(2), 2));
        assert_eq!(inner.atomically(|_| Err::<(), _>(Stop::Again)), Err(Error::Elsewhere));
        drop((outer, other, inner));
        assert_eq!(second.get(z), Ok(7));
    }
}

#[test]
fn a_view_sets_nothing() {
    for engine in ENGINES {
        let mut memory = Memory::with_engine(1, engine).unwrap();
        let cell = memory.cell(3u64).unwrap();
        let mut me = memory.thread().unwrap();
        let seen = me.view(|tx| {
            tx.set(cell, 4)?;
            tx.get(cell)
        });
        assert_eq!(seen, Ok(4));
        assert_eq!(me.view(|_| Err::<(), _>(Stop::Failed(Error::Range))), Err(Error::Range));
        drop(me);
        assert_eq!(memory.get(cell), Ok(3));
    }
}

#[derive(Debug, PartialEq)]
struct Poor(u64);

// Takes from an account.
fn pay(tx: &mut Tx<'_, '_>, account: Cell<u64>, price: u64) -> Result<u64, Halt<Poor>> {
    let has = tx.get(account)?;
    let Some(left) = has.checked_sub(price) else {
        return tx.fail(Poor(has));
    };
    tx.set(account, left)?;
    Ok(left)
}

#[test]
fn a_closure_may_end_by_an_error_of_its_own() {
    for engine in ENGINES {
        let mut memory = Memory::with_engine(2, engine).unwrap();
        let (a, b) = (memory.cell(30u64).unwrap(), memory.cell(20u64).unwrap());
        let mut other = Memory::new(1).unwrap();
        let foreign = other.cell(9u64).unwrap();
        let (mut me, mut beside) = (memory.thread().unwrap(), memory.thread().unwrap());
        let mut pay_both = |price| {
            me.try_atomically(|tx| {
                pay(tx, a, price)?;
                pay(tx, b, price)
            })
        };
        assert_eq!(pay_both(15), Ok(5));
        // Nothing of one that is given up takes effect.
        assert_eq!(pay_both(10), Err(Failure::Own(Poor(5))));
        assert_eq!(pay_both(5), Ok(0));
        // One that is lost is begun again, and its error is not the answer.
        let mut calls = 0;
        let paid = me.try_atomically(|tx| {
            calls += 1;
            tx.get(b)?;
            if calls == 1 {
                let both = |tx: &mut Tx<'_, '_>| {
                    tx.set(a, 40)?;
                    tx.set(b, 50)
                };
                beside.atomically(both).unwrap();
            }
            pay(tx, a, 1)?;
            pay(tx, b, 50)
        });
        assert_eq!((paid, calls), (Ok(0), 2));
        assert_eq!(me.try_atomically(|tx| pay(tx, foreign, 1)), Err(Failure::Failed(Error::Foreign)));
        assert_eq!(Failure::Own(Error::Range).to_string(), Error::Range.to_string());
        assert_eq!(Failure::<Error>::from(Error::Full).to_string(), Error::Full.to_string());
        drop((me, beside));
        assert_eq!((memory.get(a), memory.get(b)), (Ok(39), Ok(0)));
    }
}

#[test]
fn each_attempt_is_counted() {
    for engine in ENGINES {
        let mut memory = Memory::with_engine(2, engine).unwrap();
        let cell = memory.cell(0u64).unwrap();
        let mut elsewhere = Memory::with_engine(1, engine).unwrap();
        let nothing = elsewhere.cell(0u64).unwrap();
        let (mut me, mut beside) = (memory.thread().unwrap(), memory.thread().unwrap());
        assert_eq!(me.counts(), Counts::default());
        for _ in 0..5 {
            me.atomically(|tx| tx.update(cell, |n| n + 1)).unwrap();
            me.view(|tx| tx.get(cell)).unwrap();
        }
        let ended = Counts { begun: 10, committed: 5, viewed: 5, ..Counts::default() };
        assert_eq!(me.counts(), ended);
        assert_eq!(me.atomically(|_| Err::<(), _>(Stop::Failed(Error::Range))), Err(Error::Range));
        assert_eq!(me.try_atomically(|tx| tx.fail::<(), _>(7)), Err(Failure::Own(7)));
        let panicked = catch_unwind(AssertUnwindSafe(|| me.atomically(|_| -> Result<(), Stop> { panic!("in it") })));
        assert!(panicked.is_err());
        assert_eq!(me.counts(), Counts { begun: 13, given_up: 3, ..ended });
        // Another one comes between: what it has read cannot be read again, or not be committed.
        let mut calls = 0;
        me.atomically(|tx| {
            calls += 1;
            let n = tx.get(cell)?;
            if calls == 1 {
                beside.atomically(|tx| tx.update(cell, |n| n + 1)).unwrap();
            }
            tx.set(cell, n + 1)
        })
        .unwrap();
        let Counts { begun, committed, lost, refused, .. } = me.counts();
        assert_eq!((begun, committed, lost + refused), (15, 6, 1));
        // One that was told so of another one is given up.
        let told = me.atomically(|_| Err::<(), _>(Stop::Again));
        assert_eq!((told, me.counts().given_up), (Err(Error::Elsewhere), 4));
        assert_eq!(me.counts().lost, lost);
        // One that waits is woken by another thread, and begins again.
        let mut calls = 0;
        me.atomically(|tx| {
            calls += 1;
            let n = tx.get(cell)?;
            if calls == 1 {
                beside.atomically(|tx| tx.set(cell, 100)).unwrap();
            }
            tx.ensure(n == 100)
        })
        .unwrap();
        let all = me.counts();
        assert_eq!((all.begun, all.committed, all.waited), (18, 7, 1));
        assert_eq!(all.begun, all.committed + all.viewed + all.lost + all.refused + all.waited + all.given_up);
        drop((me, beside));
        assert_eq!((memory.get(cell), elsewhere.get(nothing)), (Ok(100), Ok(0)));
    }
}

#[cfg(feature = "std")]
#[test]
fn a_part_may_hold_its_memory() {
    use std::sync::Arc;
    for engine in ENGINES {
        let mut memory = Memory::with_engine(4, engine).unwrap();
        let counter = memory.cell(0u64).unwrap();
        let mut memory = Arc::new(memory);
        let parts: Vec<_> = (0..4).map(|_| memory.thread_owned().unwrap()).collect();
        assert!(Arc::get_mut(&mut memory).is_none());
        let adds = |mut me: Thread<'static>| {
            std::thread::spawn(move || {
                for _ in 0..1_000 {
                    me.atomically(|tx| tx.update(counter, |n| n + 1)).unwrap();
                }
            })
        };
        let running: Vec<_> = parts.into_iter().map(adds).collect();
        running.into_iter().for_each(|it| it.join().unwrap());
        assert_eq!(Arc::get_mut(&mut memory).unwrap().get(counter), Ok(4_000));
        // The last part that holds it frees it.
        let mut me = memory.thread_owned().unwrap();
        drop(memory);
        assert_eq!(me.view(|tx| tx.get(counter)), Ok(4_000));
    }
}

#[test]
fn a_memory_whose_part_was_forgotten_is_busy() {
    for engine in ENGINES {
        let mut memory = Memory::with_engine(2, engine).unwrap();
        let cell = memory.cell(1u64).unwrap();
        // As by mem::forget, but that it is found again in the end, so that nothing leaks.
        let forgotten = Box::into_raw(Box::new(memory.thread().unwrap())) as usize;
        assert_eq!(memory.get(cell), Err(Error::Busy));
        assert_eq!(memory.cell(2u64), Err(Error::Busy));
        assert_eq!(memory.queue::<u64>(2).err(), Some(Error::Busy));
        // Other parts go on.
        let mut me = memory.thread().unwrap();
        assert_eq!(me.atomically(|tx| tx.update(cell, |n| n + 1)), Ok(1));
        assert_eq!(memory.thread().err(), Some(Error::Full));
        drop(me);
        drop(unsafe { Box::from_raw(forgotten as *mut Thread<'_>) });
        assert_eq!(memory.get(cell), Ok(2));
    }
}

#[test]
fn a_long_transaction_gets_through_beside_short_ones() {
    for engine in ENGINES {
        let mut memory = Memory::with_engine(4, engine).unwrap();
        let cells: Vec<Cell<u64>> = (0..500).map(|_| memory.cell(7u64).unwrap()).collect();
        let stop = memory.cell(false).unwrap();
        scope(|s| {
            let mut movers = vec![];
            for chance in 1u64..4 {
                let (mut me, cells) = (memory.thread().unwrap(), &cells);
                movers.push(s.spawn(move || {
                    let mut chance = chance * 88_172_645_463_325_252;
                    // One is moved from a cell to another one, so that the sum stays.
                    for _ in 0..20_000 {
                        chance ^= chance << 13;
                        chance ^= chance >> 7;
                        chance ^= chance << 17;
                        let (from, to) = (chance as usize % 500, (chance >> 32) as usize % 500);
                        let ended = me.atomically(|tx| {
                            tx.update(cells[from], |n| n.wrapping_sub(1))?;
                            tx.update(cells[to], |n| n.wrapping_add(1))?;
                            tx.get(stop)
                        });
                        if ended.unwrap() {
                            break;
                        }
                    }
                }));
            }
            let mut me = memory.thread().unwrap();
            for _ in 0..5 {
                let sum = me.atomically(|tx| {
                    let mut sum = 0u64;
                    for cell in &cells {
                        sum = sum.wrapping_add(tx.get(*cell)?);
                    }
                    Ok(sum)
                });
                assert_eq!(sum, Ok(3_500));
            }
            me.atomically(|tx| tx.set(stop, true)).unwrap();
            joined(movers)
        });
    }
}

#[test]
fn misuse_has_its_error() {
    assert_eq!(Memory::new(0).err(), Some(Error::Range));
    assert_eq!(Memory::new(64).err(), Some(Error::Range));
    let mut memory = Memory::new(1).unwrap();
    let mut other = Memory::new(1).unwrap();
    let (cell, foreign) = (memory.cell(1u64).unwrap(), other.cell(2u64).unwrap());
    assert_eq!(memory.get(foreign), Err(Error::Foreign));
    let mut me = memory.thread().unwrap();
    assert_eq!(memory.thread().err(), Some(Error::Full));
    assert_eq!(me.atomically(|tx| tx.get(foreign)), Err(Error::Foreign));
    assert_eq!(me.atomically(|tx| tx.get(cell)), Ok(1));
}

#[test]
fn a_panic_gives_its_transaction_up() {
    let mut memory = Memory::new(1).unwrap();
    let cell = memory.cell(1u64).unwrap();
    let mut me = memory.thread().unwrap();
    let panicked = catch_unwind(AssertUnwindSafe(|| {
        me.atomically(|tx| -> Result<(), Stop> {
            tx.set(cell, 2)?;
            panic!("in the middle")
        })
    }));
    assert!(panicked.is_err());
    assert_eq!(me.atomically(|tx| tx.get(cell)), Ok(1));
}

#[test]
fn words_keep_what_they_are_given() {
    let mut memory = Memory::new(1).unwrap();
    let (f, b, i, w) = (
        memory.cell(-1.5f64).unwrap(),
        memory.cell(true).unwrap(),
        memory.cell(i8::MIN).unwrap(),
        memory.cell(u128::MAX - 7).unwrap(),
    );
    let (c, n) = (memory.cell(w).unwrap(), memory.cell(None::<Cell<bool>>).unwrap());
    assert!((memory.get(c), memory.get(n)) == (Ok(w), Ok(None)));
    assert_eq!((memory.get(f), memory.get(b)), (Ok(-1.5), Ok(true)));
    assert_eq!((memory.get(i), memory.get(w)), (Ok(i8::MIN), Ok(u128::MAX - 7)));
}

#[test]
fn small_ones_share_a_cell() {
    fn keeps<T: Word + PartialEq + std::fmt::Debug>(memory: &mut Memory, values: &[T]) {
        for value in values {
            let cell = memory.cell(*value).unwrap();
            assert_eq!(memory.get(cell), Ok(*value));
        }
    }
    let mut memory = Memory::new(1).unwrap();
    keeps(&mut memory, &[f32::MIN, -0.5, f32::INFINITY]);
    keeps(&mut memory, &['a', '\u{10FFFF}', '\0']);
    keeps(&mut memory, &[i128::MIN, -1, i128::MAX]);
    keeps(&mut memory, &[()]);
    keeps(&mut memory, &[(i32::MIN, 'x'), (-1, '\u{D7FF}')]);
    keeps(&mut memory, &[(true, f32::EPSILON), (false, f32::MAX)]);
    keeps(&mut memory, &[(u64::MAX, i64::MIN), (0, -1)]);
    keeps(&mut memory, &[(u32::MAX, 0, 1), (2, u32::MAX, u32::MAX)]);
    keeps(&mut memory, &[(u32::MAX, 0, 1, u32::MAX), (0, u32::MAX, u32::MAX, 0)]);
    // What is no character is told as one that stands for it.
    for word in [0xD800, 0x11_0000, u64::from(u32::MAX) + 98] {
        assert_eq!(char::from_words(word, 0), char::REPLACEMENT_CHARACTER);
    }
}

#[test]
fn types_cross_as_they_may() {
    fn send<T: Send>() {}
    fn sync<T: Sync>() {}
    send::<Memory>();
    sync::<Memory>();
    send::<Thread<'_>>();
    send::<Thread<'static>>();
    send::<Cell<u64>>();
    sync::<Cell<u64>>();
}
