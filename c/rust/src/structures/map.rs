use super::{named, Name};
use crate::{stopped, Error, Handle, Memory, Stop, Tx, Word};
use core::marker::PhantomData;

extern "C" {
    fn dstmc_map_new(memory: &mut Handle, capacity: u32, first: &mut u32) -> u32;
    fn dstmc_map_get(
        thread: &mut Handle, first: u32, capacity: u32, key: u64, there: &mut u32, low: &mut u64, high: &mut u64,
    ) -> u32;
    fn dstmc_map_contains(thread: &mut Handle, first: u32, capacity: u32, key: u64, there: &mut u32) -> u32;
    fn dstmc_map_put(
        thread: &mut Handle, first: u32, capacity: u32, key: u64, low: u64, high: u64,
        placed: &mut u32, had_low: &mut u64, had_high: &mut u64,
    ) -> u32;
    fn dstmc_map_remove(
        thread: &mut Handle, first: u32, capacity: u32, key: u64, there: &mut u32, low: &mut u64, high: &mut u64,
    ) -> u32;
    fn dstmc_map_len(thread: &mut Handle, first: u32, capacity: u32, len: &mut u32) -> u32;
}

/// How a key was put into a map.
#[derive(Clone, Copy, Debug, PartialEq, Eq)]
pub enum Placed<V> {
    /// It was not there.
    New,
    /// It was there, with this value.
    Instead(V),
    /// It was not there, and there is no room for another one. Nothing is set.
    Full,
}

impl<V: Word> Placed<V> {
    // What dstm.h calls dstm_placed, with the words that the key had.
    pub(super) fn of(placed: u32, low: u64, high: u64) -> Placed<V> {
        match placed {
            0 => Placed::New,
            1 => Placed::Instead(V::from_words(low, high)),
            _ => Placed::Full,
        }
    }
}

/// A hash map from numbers to at most so many values, in the cells of a memory: a name, copies of which name the same map.
/// A call on it is a part of a transaction. Transactions on different keys seldom stand in one another's way; give it room
/// for twice the keys that it is to hold.
///
/// ```
/// use dstm::Placed;
/// let mut memory = dstm::Memory::new(1)?;
/// let (here, there) = (memory.map::<u64>(8)?, memory.map::<u64>(8)?);
/// let mut me = memory.thread()?;
/// me.atomically(|tx| here.put(tx, 5, 50))?;
/// let moved = me.atomically(|tx| match here.remove(tx, 5)? {
///     Some(value) => there.put(tx, 5, value),
///     None => tx.retry(),
/// });
/// assert_eq!(moved, Ok(Placed::New));
/// assert_eq!(me.atomically(|tx| Ok((here.get(tx, 5)?, there.get(tx, 5)?))), Ok((None, Some(50))));
/// # Ok::<(), dstm::Error>(())
/// ```
pub struct HashMap<V> {
    name: Name,
    holds: PhantomData<fn() -> V>,
}
named!(HashMap);

impl<V: Word> HashMap<V> {
    /// How many keys it has room for.
    pub fn capacity(self) -> u32 {
        self.name.room
    }

    /// How many keys it has. It looks at each place, so that each transaction that adds a key or takes one out stands in its
    /// way.
    pub fn len(self, tx: &mut Tx<'_, '_>) -> Result<u64, Stop> {
        let Name { first, room, .. } = self.name;
        let mut len = 0;
        stopped(unsafe { dstmc_map_len(self.name.by(tx)?, first, room, &mut len) })?;
        Ok(len.into())
    }

    /// The value of a key, if the key is there.
    pub fn get(self, tx: &mut Tx<'_, '_>, key: u64) -> Result<Option<V>, Stop> {
        let Name { first, room, .. } = self.name;
        let (mut there, mut low, mut high) = (0, 0, 0);
        stopped(unsafe { dstmc_map_get(self.name.by(tx)?, first, room, key, &mut there, &mut low, &mut high) })?;
        Ok((there == 1).then(|| V::from_words(low, high)))
    }

    /// Whether a key is there.
    pub fn contains(self, tx: &mut Tx<'_, '_>, key: u64) -> Result<bool, Stop> {
        let Name { first, room, .. } = self.name;
        let mut there = 0;
        stopped(unsafe { dstmc_map_contains(self.name.by(tx)?, first, room, key, &mut there) })?;
        Ok(there == 1)
    }

    /// Gives a key this value, and adds the key where it is not there.
    pub fn put(self, tx: &mut Tx<'_, '_>, key: u64, value: V) -> Result<Placed<V>, Stop> {
        let Name { first, room, .. } = self.name;
        let (low, high) = value.to_words();
        let (mut placed, mut had_low, mut had_high) = (0, 0, 0);
        let me = self.name.by(tx)?;
        stopped(unsafe {
            dstmc_map_put(me, first, room, key, low, high, &mut placed, &mut had_low, &mut had_high)
        })?;
        Ok(Placed::of(placed, had_low, had_high))
    }

    /// Takes a key out, and answers its value, if the key is there.
    pub fn remove(self, tx: &mut Tx<'_, '_>, key: u64) -> Result<Option<V>, Stop> {
        let Name { first, room, .. } = self.name;
        let (mut there, mut low, mut high) = (0, 0, 0);
        stopped(unsafe { dstmc_map_remove(self.name.by(tx)?, first, room, key, &mut there, &mut low, &mut high) })?;
        Ok((there == 1).then(|| V::from_words(low, high)))
    }
}

impl Memory {
    /// A new map, which has room for so many keys, at least 1. It takes twice as many cells: all of them are made, or none.
    pub fn map<V: Word>(&mut self, capacity: u32) -> Result<HashMap<V>, Error> {
        Ok(HashMap {
            name: Name::new(self, capacity, dstmc_map_new)?,
            holds: PhantomData,
        })
    }
}
