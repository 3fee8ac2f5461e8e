use super::{named, Name};
use crate::{stopped, Error, Handle, Memory, Stop, Tx, Word};
use core::marker::PhantomData;

extern "C" {
    fn dstmc_queue_new(memory: &mut Handle, capacity: u32, first: &mut u32) -> u32;
    fn dstmc_queue_try_push(
        thread: &mut Handle, first: u32, capacity: u32, low: u64, high: u64, pushed: &mut u32,
    ) -> u32;
    fn dstmc_queue_try_pop(
        thread: &mut Handle, first: u32, capacity: u32, there: &mut u32, low: &mut u64, high: &mut u64,
    ) -> u32;
    fn dstmc_queue_front(
        thread: &mut Handle, first: u32, capacity: u32, there: &mut u32, low: &mut u64, high: &mut u64,
    ) -> u32;
    fn dstmc_queue_len(thread: &mut Handle, first: u32, capacity: u32, len: &mut u32) -> u32;
}

/// A queue of at most so many values, first in, first out, in the cells of a memory: a name, copies of which name the same
/// queue. A call on it is a part of a transaction.
///
/// ```
/// let mut memory = dstm::Memory::new(2)?;
/// let queue = memory.queue::<u64>(8)?;
/// let (mut producer, mut consumer) = (memory.thread()?, memory.thread()?);
/// std::thread::scope(|scope| {
///     scope.spawn(move || {
///         for n in 0..100 {
///             producer.atomically(|tx| queue.push(tx, n)).unwrap(); // waits where it is full
///         }
///     });
///     for n in 0..100 {
///         assert_eq!(consumer.atomically(|tx| queue.pop(tx)), Ok(n));
///     }
/// });
/// # Ok::<(), dstm::Error>(())
/// ```
pub struct Queue<T> {
    name: Name,
    holds: PhantomData<fn() -> T>,
}
named!(Queue);

// What tells a value, and whether there is one.
type Tell = unsafe extern "C" fn(&mut Handle, u32, u32, &mut u32, &mut u64, &mut u64) -> u32;

impl<T: Word> Queue<T> {
    /// How many values it has room for.
    pub fn capacity(self) -> u32 {
        self.name.room
    }

    /// How many values it has.
    pub fn len(self, tx: &mut Tx<'_, '_>) -> Result<u64, Stop> {
        let Name { first, room, .. } = self.name;
        let mut len = 0;
        stopped(unsafe { dstmc_queue_len(self.name.by(tx)?, first, room, &mut len) })?;
        Ok(len.into())
    }

    /// Puts a value at the end, and tells whether there was room.
    pub fn try_push(self, tx: &mut Tx<'_, '_>, value: T) -> Result<bool, Stop> {
        let Name { first, room, .. } = self.name;
        let (low, high) = value.to_words();
        let mut pushed = 0;
        stopped(unsafe { dstmc_queue_try_push(self.name.by(tx)?, first, room, low, high, &mut pushed) })?;
        Ok(pushed == 1)
    }

    /// Puts a value at the end, once there is room.
    pub fn push(self, tx: &mut Tx<'_, '_>, value: T) -> Result<(), Stop> {
        let room = self.try_push(tx, value)?;
        tx.ensure(room)
    }

    fn told(self, tx: &mut Tx<'_, '_>, tell: Tell) -> Result<Option<T>, Stop> {
        let Name { first, room, .. } = self.name;
        let (mut there, mut low, mut high) = (0, 0, 0);
        stopped(unsafe { tell(self.name.by(tx)?, first, room, &mut there, &mut low, &mut high) })?;
        Ok((there == 1).then(|| T::from_words(low, high)))
    }

    /// The first value, if there is one.
    pub fn front(self, tx: &mut Tx<'_, '_>) -> Result<Option<T>, Stop> {
        self.told(tx, dstmc_queue_front)
    }

    /// Takes the first value, if there is one.
    pub fn try_pop(self, tx: &mut Tx<'_, '_>) -> Result<Option<T>, Stop> {
        self.told(tx, dstmc_queue_try_pop)
    }

    /// Takes the first value, once there is one.
    pub fn pop(self, tx: &mut Tx<'_, '_>) -> Result<T, Stop> {
        match self.try_pop(tx)? {
            Some(value) => Ok(value),
            None => tx.retry(),
        }
    }
}

impl Memory {
    /// A new queue, which has room for so many values, at least 1. It takes as many cells, and one more: all of them are made,
    /// or none.
    pub fn queue<T: Word>(&mut self, capacity: u32) -> Result<Queue<T>, Error> {
        Ok(Queue {
            name: Name::new(self, capacity, dstmc_queue_new)?,
            holds: PhantomData,
        })
    }
}
