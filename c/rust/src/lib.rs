//! A software transactional memory for the threads of a Rust program. The library behind it, `libdstm.a`, is written
//! and proved in Rattle.
//!
//! ```
//! use dstm::Memory;
//! let mut memory = Memory::new(4)?;
//! let counter = memory.cell(0u64)?;
//! std::thread::scope(|scope| {
//!     for _ in 0..4 {
//!         let mut me = memory.thread().unwrap();
//!         scope.spawn(move || {
//!             for _ in 0..10_000 {
//!                 me.atomically(|tx| tx.update(counter, |n| n + 1)).unwrap();
//!             }
//!         });
//!     }
//! });
//! assert_eq!(memory.get(counter)?, 40_000);
//! # Ok::<(), dstm::Error>(())
//! ```
//!
//! A closure that cannot go on with what it has read retries: it is called again once something of that may have
//! changed. With `or_else` it goes on in another way instead, and what the first way has set is undone.
//!
//! ```
//! use dstm::{Cell, Memory, Stop, Tx};
//! fn take(tx: &mut Tx<'_, '_>, from: Cell<u64>) -> Result<(), Stop> {
//!     let left = tx.get(from)?;
//!     tx.ensure(left > 0)?;
//!     tx.set(from, left - 1)
//! }
//! let mut memory = Memory::new(1)?;
//! let (here, there) = (memory.cell(0u64)?, memory.cell(3u64)?);
//! let mut me = memory.thread()?;
//! me.atomically(|tx| tx.or_else(|tx| take(tx, here), |tx| take(tx, there)))?;
//! drop(me);
//! assert_eq!((memory.get(here)?, memory.get(there)?), (0, 2));
//! # Ok::<(), dstm::Error>(())
//! ```
//!
//! A closure may have errors of its own, which give the transaction up:
//!
//! ```
//! use dstm::{Failure, Memory};
//! #[derive(Debug, PartialEq)]
//! struct Poor(u64);
//! let mut memory = Memory::new(1)?;
//! let account = memory.cell(30u64)?;
//! let mut me = memory.thread()?;
//! let paid = me.try_atomically(|tx| {
//!     let has = tx.get(account)?;
//!     let left = has.checked_sub(50).map_or_else(|| tx.fail(Poor(has)), Ok)?;
//!     Ok(tx.set(account, left)?)
//! });
//! assert_eq!(paid, Err(Failure::Own(Poor(30))));
//! # Ok::<(), dstm::Error>(())
//! ```
//!
//! Threads that may outlive the one that starts them take parts of a memory that all of them hold:
//!
//! ```
//! use dstm::Memory;
//! use std::sync::Arc;
//! let mut memory = Memory::new(2)?;
//! let counter = memory.cell(0u64)?;
//! let memory = Arc::new(memory);
//! let mut me = memory.thread_owned()?;
//! let adds = std::thread::spawn(move || me.atomically(|tx| tx.update(counter, |n| n + 1)));
//! adds.join().unwrap()?;
//! assert_eq!(memory.thread()?.view(|tx| tx.get(counter))?, 1);
//! # Ok::<(), dstm::Error>(())
//! ```
//!
//! No cell is made, and none is looked at from outside, while a thread has a part:
//!
//! ```compile_fail,E0502
//! let mut memory = dstm::Memory::new(1).unwrap();
//! let me = memory.thread().unwrap();
//! memory.cell(0u64).unwrap();
//! drop(me);
//! ```
//!
//! A part is not shared by two threads, and does not outlive its memory:
//!
//! ```compile_fail,E0277
//! fn shared<T: Sync>(_: &T) {}
//! let memory = dstm::Memory::new(1).unwrap();
//! shared(&memory.thread().unwrap());
//! ```
//!
//! ```compile_fail,E0505
//! let memory = dstm::Memory::new(1).unwrap();
//! let me = memory.thread().unwrap();
//! drop(memory);
//! drop(me);
//! ```
//!
//! A transaction is not begun in a transaction of the same part, and does not outlive its closure:
//!
//! ```compile_fail,E0499
//! let mut memory = dstm::Memory::new(1).unwrap();
//! let cell = memory.cell(0u64).unwrap();
//! let mut me = memory.thread().unwrap();
//! me.atomically(|_| { me.atomically(|tx| tx.get(cell)).ok(); Ok(()) }).unwrap();
//! ```
//!
//! ```compile_fail,E0521
//! let mut memory = dstm::Memory::new(1).unwrap();
//! let mut me = memory.thread().unwrap();
//! let mut out = None;
//! me.atomically(|tx| { out = Some(tx); Ok(()) }).unwrap();
//! ```
//!
//! A cell holds what two words can keep:
//!
//! ```compile_fail,E0277
//! dstm::Memory::new(1).unwrap().cell(String::new()).unwrap();
//! ```
//!
//! A thread that waits sleeps, until a commit of its memory wakes it. Without the feature `std` the crate wants `core`
//! alone, and a thread that waits spins.
#![cfg_attr(not(feature = "std"), no_std)]
#![deny(unsafe_op_in_unsafe_fn, missing_docs)]

mod bell;
mod home;
mod lock;
mod structures;
mod word;

use bell::{give_way, Bell};
use core::cell::Cell as Plain;
use core::convert::Infallible;
use core::fmt::{Debug, Display, Formatter};
use core::marker::PhantomData;
use core::mem::forget;
use core::ptr::null_mut;
use core::sync::atomic::{AtomicU64, Ordering};
use core::time::Duration;
use home::Home;
use lock::Lock;
pub use structures::{HashMap, Inserted, Keys, OrderedMap, OrderedSet, Placed, Pool, Queue, Scan};
pub use word::{Single, Word};

// What `dstm.h` calls dstm_memory and dstm_thread.
#[repr(C)]
struct Handle {
    at: *mut u8,
    state: u64,
}

// SAFETY: what a handle stands for may be used by another thread, as `dstm.h` says, one call at a time.
unsafe impl Send for Handle {}

extern "C" {
    fn dstmc_memory_new(memory: &mut Handle, threads: u32, engine: u32) -> u32;
    fn dstmc_memory_free(memory: &mut Handle) -> u32;
    fn dstmc_cell_new(memory: &mut Handle, low: u64, high: u64, cell: &mut u32) -> u32;
    fn dstmc_peek(memory: &mut Handle, cell: u32, low: &mut u64, high: &mut u64) -> u32;
    fn dstmc_thread_new(memory: &mut Handle, thread: &mut Handle) -> u32;
    fn dstmc_thread_free(thread: &mut Handle) -> u32;
    fn dstmc_turn(thread: &mut Handle, lost: u32) -> u32;
    fn dstmc_begin(thread: &mut Handle) -> u32;
    fn dstmc_get(thread: &mut Handle, cell: u32, low: &mut u64, high: &mut u64) -> u32;
    fn dstmc_set(thread: &mut Handle, cell: u32, low: u64, high: u64) -> u32;
    fn dstmc_commit(thread: &mut Handle) -> u32;
    fn dstmc_abort(thread: &mut Handle) -> u32;
    fn dstmc_look(thread: &mut Handle) -> u32;
    fn dstmc_mark(thread: &mut Handle, mark: &mut u64) -> u32;
    fn dstmc_undo_to(thread: &mut Handle, mark: u64) -> u32;
}

const CLOSED: Handle = Handle { at: null_mut(), state: 0 };
const DONE: u32 = 0;
const AGAIN: u32 = 1;
const SPENT: u32 = 2;
const OPEN: u32 = 5;
const FULL: u32 = 9;
// A transaction waits so long until something changes.
const PATIENCE: Duration = Duration::from_secs(10);
// After so many lost attempts a transaction goes first, and no longer gives way.
const MOST_LOST: u32 = 8;
// So often a thread asks whether another one still goes first, before it gives way.
const ASKS: u32 = 1024;

/// Why a call failed.
#[derive(Clone, Copy, Debug, PartialEq, Eq)]
pub enum Error {
    /// By DSTM: the attempts of the part are used up, and there is no other part to take.
    Spent,
    /// The cell, or the structure, is one of another memory; or a cell is given back to a pool out of which it was not taken.
    Foreign,
    /// The memory has as many cells, or as many parts, as it can have.
    Full,
    /// There is not enough memory.
    Memory,
    /// A number is out of its range: there have to be from 1 to 63 threads, and a structure has to have room for 1 at least,
    /// and for no more than a memory has room for.
    Range,
    /// The closure retried, and nothing that it has read has changed for long, or it has waited for as long as it may.
    Idle,
    /// The closure was stopped by a call on another transaction, which is lost; its own is not.
    Elsewhere,
    /// A part was never given back: `mem::forget` took it.
    Busy,
}

impl Display for Error {
    fn fmt(&self, f: &mut Formatter<'_>) -> core::fmt::Result {
        f.write_str(match self {
            Error::Spent => "the attempts of the part are used up",
            Error::Foreign => "the cell is one of another memory",
            Error::Full => "the memory has no room for it",
            Error::Memory => "out of memory",
            Error::Range => "a number is out of its range",
            Error::Idle => "a transaction waited in vain",
            Error::Elsewhere => "another transaction is lost",
            Error::Busy => "a part was never given back",
        })
    }
}

impl core::error::Error for Error {}

/// Why a closure cannot go on with its transaction: it hands it out, by `?`.
#[derive(Clone, Copy, Debug, PartialEq, Eq)]
pub enum Stop {
    /// Another transaction came between: the closure is called again at once.
    Again,
    /// It is called again once something that it has read may have changed.
    Retry,
    /// The transaction is given up, and this is the answer.
    Failed(Error),
}

/// Why a closure that has errors of its own cannot go on: it hands it out, by `?` where a call was stopped.
#[derive(Clone, Copy, Debug, PartialEq, Eq)]
pub enum Halt<E> {
    /// A call on the transaction was stopped.
    Stopped(Stop),
    /// The transaction is given up, and this is the answer.
    Own(E),
}

impl<E> From<Stop> for Halt<E> {
    fn from(stop: Stop) -> Self {
        Halt::Stopped(stop)
    }
}

/// Why a transaction whose closure has errors of its own did not take effect.
#[derive(Clone, Copy, Debug, PartialEq, Eq)]
pub enum Failure<E> {
    /// As `atomically` says.
    Failed(Error),
    /// The closure has ended by this.
    Own(E),
}

impl<E> From<Error> for Failure<E> {
    fn from(error: Error) -> Self {
        Failure::Failed(error)
    }
}

impl<E: Display> Display for Failure<E> {
    fn fmt(&self, f: &mut Formatter<'_>) -> core::fmt::Result {
        match self {
            Failure::Failed(error) => Display::fmt(error, f),
            Failure::Own(error) => Display::fmt(error, f),
        }
    }
}

impl<E: core::error::Error> core::error::Error for Failure<E> {}

// Why one failed whose closure has none.
fn failed(failure: Failure<Infallible>) -> Error {
    match failure {
        Failure::Failed(error) => error,
        Failure::Own(never) => match never {},
    }
}

fn error(code: u32) -> Error {
    match code {
        2 => Error::Spent,
        3 => Error::Foreign,
        8 => Error::Busy,
        9 => Error::Full,
        10 => Error::Memory,
        11 => Error::Range,
        _ => unreachable!("libdstm answered {code}, which the types of this crate rule out"),
    }
}

fn done(code: u32) -> Result<(), Error> {
    if code == DONE {
        Ok(())
    } else {
        Err(error(code))
    }
}

fn stopped(code: u32) -> Result<(), Stop> {
    match code {
        DONE => Ok(()),
        AGAIN => Err(Stop::Again),
        code => Err(Stop::Failed(error(code))),
    }
}

/// By which engine a memory works: by TL2; or by DSTM, under one of four contention managers. By DSTM nobody locks; a
/// part has 65,536 attempts, and then another one takes its place.
#[derive(Clone, Copy, Debug, PartialEq, Eq)]
pub enum Engine {
    /// TL2.
    Tl2 = 0,
    /// DSTM under Polka.
    Polka = 1,
    /// DSTM under Karma.
    Karma = 2,
    /// DSTM under Polite.
    Polite = 3,
    /// DSTM under Greedy.
    Greedy = 4,
}

/// What has become of the attempts of a part, each of which has ended in one of these ways.
#[derive(Clone, Copy, Debug, Default, PartialEq, Eq)]
pub struct Counts {
    /// How many were begun: so many as the others come to together.
    pub begun: u64,
    /// They took effect.
    pub committed: u64,
    /// They were views, and ended well.
    pub viewed: u64,
    /// They were lost before their closure had ended.
    pub lost: u64,
    /// They were lost as they were to be committed.
    pub refused: u64,
    /// Their closure retried, and the thread waited.
    pub waited: u64,
    /// They were given up: by another error, or by a panic.
    pub given_up: u64,
}

/// A cell of a memory: a name, copies of which name the same cell.
pub struct Cell<T> {
    memory: u64,
    object: u32,
    holds: PhantomData<fn() -> T>,
}

impl<T> Clone for Cell<T> {
    fn clone(&self) -> Self {
        *self
    }
}

impl<T> Copy for Cell<T> {}

impl<T> Debug for Cell<T> {
    fn fmt(&self, f: &mut Formatter<'_>) -> core::fmt::Result {
        write!(f, "Cell({}, {})", self.memory, self.object)
    }
}

impl<T> PartialEq for Cell<T> {
    fn eq(&self, other: &Self) -> bool {
        (self.memory, self.object) == (other.memory, other.object)
    }
}

impl<T> Eq for Cell<T> {}

// A cell may name another one, or none.
impl<T> Word for Cell<T> {
    fn to_words(self) -> (u64, u64) {
        (self.memory, self.object.into())
    }
    fn from_words(memory: u64, object: u64) -> Self {
        Cell {
            memory,
            object: object as u32,
            holds: PhantomData,
        }
    }
}

impl<T> Word for Option<Cell<T>> {
    fn to_words(self) -> (u64, u64) {
        self.map_or((0, 0), Cell::to_words)
    }
    fn from_words(memory: u64, object: u64) -> Self {
        (memory != 0).then(|| Cell::from_words(memory, object))
    }
}

// No memory has the number 0.
static MEMORIES: AtomicU64 = AtomicU64::new(1);

/// Cells that the transactions of threads may change.
pub struct Memory {
    id: u64,
    // One call on it at a time.
    handle: Lock,
    bell: Bell,
}

impl Memory {
    /// A memory with no cell, in which so many threads, from 1 to 63, may have parts at once. It works by TL2.
    pub fn new(threads: u32) -> Result<Memory, Error> {
        Memory::with_engine(threads, Engine::Tl2)
    }

    /// The same by another engine.
    pub fn with_engine(threads: u32, engine: Engine) -> Result<Memory, Error> {
        let mut handle = CLOSED;
        // SAFETY: as of each call below, the declarations fit `dstm.h`; a handle was zeros at first, is changed by
        // the library alone, and lies behind one `&mut`; and no call comes from a signal handler.
        done(unsafe { dstmc_memory_new(&mut handle, threads, engine as u32) })?;
        Ok(Memory {
            id: MEMORIES.fetch_add(1, Ordering::Relaxed),
            handle: Lock::new(handle),
            bell: Bell::new(),
        })
    }

    /// A new cell. There are at most 524,288. `Busy`: `mem::forget` took a part, which is so never given back.
    pub fn cell<T: Word>(&mut self, value: T) -> Result<Cell<T>, Error> {
        let (low, high) = value.to_words();
        let mut object = 0;
        done(unsafe { dstmc_cell_new(&mut self.handle.lock(), low, high, &mut object) })?;
        Ok(Cell {
            memory: self.id,
            object,
            holds: PhantomData,
        })
    }

    /// What a cell holds. `Busy`, as of `cell`.
    pub fn get<T: Word>(&mut self, cell: Cell<T>) -> Result<T, Error> {
        if cell.memory != self.id {
            return Err(Error::Foreign);
        }
        let (mut low, mut high) = (0, 0);
        done(unsafe { dstmc_peek(&mut self.handle.lock(), cell.object, &mut low, &mut high) })?;
        Ok(T::from_words(low, high))
    }

    /// A part for a thread. `Full`: so many threads have parts; or, while one was always out, parts have come and gone:
    /// in a row as many as threads are given out, and by TL2 up to 63. One that `mem::forget` takes is never given
    /// back: `cell` and `get` of its memory answer `Busy` then.
    pub fn thread(&self) -> Result<Thread<'_>, Error> {
        Thread::of(Home::Lent(self))
    }

    /// The same for a thread that may outlive this call: the part holds the memory.
    #[cfg(feature = "std")]
    pub fn thread_owned(self: &std::sync::Arc<Self>) -> Result<Thread<'static>, Error> {
        Thread::of(Home::Held(self.clone()))
    }
}

impl Drop for Memory {
    fn drop(&mut self) {
        let _ = unsafe { dstmc_memory_free(&mut self.handle.lock()) };
    }
}

/// A thread's part in a memory. It may go to another thread, and is not shared.
pub struct Thread<'m> {
    memory: Home<'m>,
    // The number of the memory: each call on a cell asks for it, whoever holds the memory.
    id: u64,
    handle: Handle,
    seed: u64,
    // What is given up is not counted: it is the rest.
    counts: Counts,
    alone: PhantomData<Plain<()>>,
}

impl<'m> Thread<'m> {
    fn of(memory: Home<'m>) -> Result<Thread<'m>, Error> {
        let mut handle = CLOSED;
        done(unsafe { dstmc_thread_new(&mut memory.handle.lock(), &mut handle) })?;
        Ok(Thread {
            id: memory.id,
            memory,
            seed: handle.at as u64,
            handle,
            counts: Counts::default(),
            alone: PhantomData,
        })
    }

    /// What has become of its attempts, with those of parts that were spent and that it has replaced.
    pub fn counts(&self) -> Counts {
        let Counts { begun, committed, viewed, lost, refused, waited, .. } = self.counts;
        Counts {
            given_up: begun - committed - viewed - lost - refused - waited,
            ..self.counts
        }
    }

    /// Makes a transaction: calls the closure, and again, until what it did has taken effect as a whole. On a panic
    /// of the closure it is given up. After each attempt that was lost the thread gives way, for longer each time, 1 ms
    /// at most; after 8 of them the transaction goes first, so that a long one gets through beside short ones. Where the
    /// closure retries the thread sleeps until something that it has read may have changed; `Idle`, where nothing has for
    /// ten seconds. Without the feature `std` it spins, for 1,048,576 looks.
    pub fn atomically<R>(
        &mut self,
        mut f: impl FnMut(&mut Tx<'_, 'm>) -> Result<R, Stop>,
    ) -> Result<R, Error> {
        self.try_atomically(|tx| Ok(f(tx)?)).map_err(failed)
    }

    /// The same of a closure that may also end by an error of its own, which gives the transaction up.
    pub fn try_atomically<R, E>(
        &mut self,
        f: impl FnMut(&mut Tx<'_, 'm>) -> Result<R, Halt<E>>,
    ) -> Result<R, Failure<E>> {
        self.make(true, |tx, times| tx.wait(PATIENCE, times), f)
    }

    /// The same as `atomically`, and it waits for so long in all: then the answer is `Idle`. With `Duration::ZERO` it
    /// does not wait.
    #[cfg(feature = "std")]
    pub fn atomically_within<R>(
        &mut self,
        patience: Duration,
        mut f: impl FnMut(&mut Tx<'_, 'm>) -> Result<R, Stop>,
    ) -> Result<R, Error> {
        let mut left = patience;
        let wait = |tx: &mut Tx<'_, 'm>, times| {
            let begun = std::time::Instant::now();
            tx.wait(left, times)?;
            left = left.saturating_sub(begun.elapsed());
            Ok(())
        };
        self.make(true, wait, |tx| Ok(f(tx)?)).map_err(failed)
    }

    /// Looks at the memory: calls the closure as `atomically` does. What the last call was told is of one moment. Nothing
    /// that it has set takes effect, no number is drawn, and nobody is woken, so that views of several threads do not meet.
    pub fn view<R>(
        &mut self,
        mut f: impl FnMut(&mut Tx<'_, 'm>) -> Result<R, Stop>,
    ) -> Result<R, Error> {
        self.make(false, |tx, times| tx.wait(PATIENCE, times), |tx| Ok(f(tx)?)).map_err(failed)
    }

    // Calls the closure on attempts, one after the other, until one has ended well.
    fn make<R, E>(
        &mut self,
        commits: bool,
        mut wait: impl FnMut(&mut Tx<'_, 'm>, u32) -> Result<(), Error>,
        mut f: impl FnMut(&mut Tx<'_, 'm>) -> Result<R, Halt<E>>,
    ) -> Result<R, Failure<E>> {
        let (mut lost, mut waits) = (0, 0u32);
        loop {
            self.wait_for_turn(lost);
            self.begin()?;
            self.counts.begun += 1;
            let mut tx = Tx { thread: self };
            match f(&mut tx) {
                Ok(answer) => {
                    if !commits {
                        tx.thread.counts.viewed += 1;
                        return Ok(answer);
                    }
                    if tx.commit()? {
                        self.counts.committed += 1;
                        return Ok(answer);
                    }
                    self.counts.refused += 1;
                }
                Err(Halt::Stopped(Stop::Again)) => {
                    tx.thread.counts.lost += 1;
                    forget(tx);
                }
                Err(Halt::Stopped(Stop::Retry)) => {
                    tx.thread.counts.waited += 1;
                    waits = waits.saturating_add(1);
                    wait(&mut tx, waits)?;
                    forget(tx);
                    // Something has changed, and nobody is in its way.
                    lost = 0;
                    continue;
                }
                Err(Halt::Stopped(Stop::Failed(error))) => return Err(error.into()),
                Err(Halt::Own(error)) => return Err(Failure::Own(error)),
            }
            if lost < MOST_LOST {
                lost += 1;
                give_way(lost);
            }
        }
    }

    // Lets a transaction that was lost often, and has the turn, go first; one that was lost so often takes it.
    fn wait_for_turn(&mut self, lost: u32) {
        let mut asked = 0;
        while unsafe { dstmc_turn(&mut self.handle, lost) } == AGAIN {
            asked += 1;
            if asked % ASKS == 0 {
                give_way(asked / ASKS);
            }
        }
    }

    // Begins a transaction, or the next attempt at one that was lost. A part that is spent is replaced.
    fn begin(&mut self) -> Result<(), Error> {
        let mut code = unsafe { dstmc_begin(&mut self.handle) };
        if code == OPEN {
            // It is not lost: the closure was told so of another one.
            self.counts.lost -= 1;
            let _ = unsafe { dstmc_abort(&mut self.handle) };
            return Err(Error::Elsewhere);
        }
        if code == SPENT {
            self.renew()?;
            code = unsafe { dstmc_begin(&mut self.handle) };
        }
        done(code)
    }

    // A number that looks as if it came by chance.
    fn chance(&mut self) -> u64 {
        self.seed = self.seed.wrapping_mul(6_364_136_223_846_793_005).wrapping_add(1_442_695_040_888_963_407);
        self.seed >> 33
    }

    // Takes another part in the place of one that is spent.
    fn renew(&mut self) -> Result<(), Error> {
        let mut memory = self.memory.handle.lock();
        let _ = unsafe { dstmc_thread_free(&mut self.handle) };
        match unsafe { dstmc_thread_new(&mut memory, &mut self.handle) } {
            FULL => Err(Error::Spent),
            code => done(code),
        }
    }
}

impl Drop for Thread<'_> {
    fn drop(&mut self) {
        let _ = unsafe { dstmc_thread_free(&mut self.handle) };
    }
}

/// A transaction under way.
pub struct Tx<'a, 'm> {
    thread: &'a mut Thread<'m>,
}

impl Drop for Tx<'_, '_> {
    fn drop(&mut self) {
        let _ = unsafe { dstmc_abort(&mut self.thread.handle) };
    }
}

impl<'m> Tx<'_, 'm> {
    // Commits, and tells whether it has taken effect.
    fn commit(self) -> Result<bool, Error> {
        match unsafe { dstmc_commit(&mut self.thread.handle) } {
            DONE => {
                self.thread.memory.bell.ring();
                forget(self);
                Ok(true)
            }
            AGAIN => {
                forget(self);
                Ok(false)
            }
            code => Err(error(code)),
        }
    }

    fn mine<T>(&self, cell: Cell<T>) -> Result<u32, Stop> {
        if cell.memory == self.thread.id {
            Ok(cell.object)
        } else {
            Err(Stop::Failed(Error::Foreign))
        }
    }

    // Waits the so-manieth time until something that it has read may have changed, for so long at most. One that was
    // often woken in vain gives way first, so that steady commits to other cells do not wake it each time. One that is
    // spent begins by another part.
    fn wait(&mut self, patience: Duration, times: u32) -> Result<(), Error> {
        if times > MOST_LOST {
            give_way(2 + times / MOST_LOST);
        }
        let Thread { memory, handle, .. } = &mut *self.thread;
        memory.bell.wait(patience, || match unsafe { dstmc_look(handle) } {
            DONE => Ok(false),
            AGAIN | SPENT => Ok(true),
            code => Err(error(code)),
        })
    }

    /// What a cell holds.
    pub fn get<T: Word>(&mut self, cell: Cell<T>) -> Result<T, Stop> {
        let object = self.mine(cell)?;
        let (mut low, mut high) = (0, 0);
        stopped(unsafe { dstmc_get(&mut self.thread.handle, object, &mut low, &mut high) })?;
        Ok(T::from_words(low, high))
    }

    /// Puts a value into a cell.
    pub fn set<T: Word>(&mut self, cell: Cell<T>, value: T) -> Result<(), Stop> {
        let object = self.mine(cell)?;
        let (low, high) = value.to_words();
        stopped(unsafe { dstmc_set(&mut self.thread.handle, object, low, high) })
    }

    /// Changes what a cell holds, and answers what it held.
    pub fn update<T: Word>(&mut self, cell: Cell<T>, f: impl FnOnce(T) -> T) -> Result<T, Stop> {
        let had = self.get(cell)?;
        self.set(cell, f(had))?;
        Ok(had)
    }

    /// Has the closure called again once something that it has read may have changed.
    pub fn retry<R>(&self) -> Result<R, Stop> {
        Err(Stop::Retry)
    }

    /// Gives the transaction up, by an error of the closure's own.
    pub fn fail<R, E>(&self, error: E) -> Result<R, Halt<E>> {
        Err(Halt::Own(error))
    }

    /// Retries where the condition does not hold.
    pub fn ensure(&self, holds: bool) -> Result<(), Stop> {
        if holds {
            Ok(())
        } else {
            self.retry()
        }
    }

    /// Goes on by the first alternative, or by the second one where the first retries: what that has set is undone,
    /// and what it has read stays read.
    pub fn or_else<R>(
        &mut self,
        first: impl FnOnce(&mut Tx<'_, 'm>) -> Result<R, Stop>,
        second: impl FnOnce(&mut Tx<'_, 'm>) -> Result<R, Stop>,
    ) -> Result<R, Stop> {
        let mut mark = 0;
        stopped(unsafe { dstmc_mark(&mut self.thread.handle, &mut mark) })?;
        match first(self) {
            Err(Stop::Retry) => {
                stopped(unsafe { dstmc_undo_to(&mut self.thread.handle, mark) })?;
                second(self)
            }
            answer => answer,
        }
    }
}
