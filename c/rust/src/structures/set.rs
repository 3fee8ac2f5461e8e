use super::Name;
use crate::{stopped, Error, Handle, Memory, Stop, Tx};

extern "C" {
    fn dstmc_set_new(memory: &mut Handle, capacity: u32, first: &mut u32) -> u32;
    fn dstmc_set_insert(thread: &mut Handle, first: u32, capacity: u32, key: u64, inserted: &mut u32) -> u32;
    fn dstmc_set_remove(thread: &mut Handle, first: u32, capacity: u32, key: u64, there: &mut u32) -> u32;
    fn dstmc_set_contains(thread: &mut Handle, first: u32, capacity: u32, key: u64, there: &mut u32) -> u32;
    fn dstmc_set_len(thread: &mut Handle, first: u32, capacity: u32, len: &mut u32) -> u32;
    fn dstmc_set_first(thread: &mut Handle, first: u32, capacity: u32, there: &mut u32, key: &mut u64) -> u32;
    fn dstmc_set_last(thread: &mut Handle, first: u32, capacity: u32, there: &mut u32, key: &mut u64) -> u32;
    fn dstmc_set_next_above(
        thread: &mut Handle, first: u32, capacity: u32, bound: u64, there: &mut u32, key: &mut u64,
    ) -> u32;
    fn dstmc_set_next_below(
        thread: &mut Handle, first: u32, capacity: u32, bound: u64, there: &mut u32, key: &mut u64,
    ) -> u32;
    fn dstmc_set_pop_first(thread: &mut Handle, first: u32, capacity: u32, there: &mut u32, key: &mut u64) -> u32;
    fn dstmc_set_pop_last(thread: &mut Handle, first: u32, capacity: u32, there: &mut u32, key: &mut u64) -> u32;
}

/// How a key was inserted into a set.
#[derive(Clone, Copy, Debug, PartialEq, Eq)]
pub enum Inserted {
    /// It was not there.
    New,
    /// It was there. Nothing is set.
    There,
    /// It was not there, and there is no room for another one. Nothing is set.
    Full,
}

/// A set of at most so many numbers that tells them by their order, in the cells of a memory: a name, copies of which name
/// the same set. A call on it is a part of a transaction. It costs what an [`OrderedMap`] costs.
///
/// ```
/// use dstm::Inserted;
/// let mut memory = dstm::Memory::new(1)?;
/// let set = memory.ordered_set(8)?;
/// let mut me = memory.thread()?;
/// assert_eq!(me.atomically(|tx| set.insert(tx, 30)), Ok(Inserted::New));
/// me.atomically(|tx| set.insert(tx, 10))?;
/// assert_eq!(me.atomically(|tx| set.scan(tx, 0).collect()), Ok(vec![10, 30]));
/// assert_eq!(me.atomically(|tx| set.pop_last(tx)), Ok(Some(30)));
/// # Ok::<(), dstm::Error>(())
/// ```
///
/// [`OrderedMap`]: crate::OrderedMap
#[derive(Clone, Copy, Debug)]
pub struct OrderedSet {
    name: Name,
}

// What tells a key, and whether there is one.
type Tell = unsafe extern "C" fn(&mut Handle, u32, u32, &mut u32, &mut u64) -> u32;
// The same of one that stands to a bound as the call says.
type TellBy = unsafe extern "C" fn(&mut Handle, u32, u32, u64, &mut u32, &mut u64) -> u32;
// What tells something of a key that it is given.
type TellOf = unsafe extern "C" fn(&mut Handle, u32, u32, u64, &mut u32) -> u32;

impl OrderedSet {
    /// How many keys it has room for.
    pub fn capacity(self) -> u32 {
        self.name.room
    }

    /// How many keys it has. It looks at each place, so that each transaction that adds a key or takes one out stands in its
    /// way.
    pub fn len(self, tx: &mut Tx<'_, '_>) -> Result<u64, Stop> {
        let Name { first, room, .. } = self.name;
        let mut len = 0;
        stopped(unsafe { dstmc_set_len(self.name.by(tx)?, first, room, &mut len) })?;
        Ok(len.into())
    }

    fn told_of(self, tx: &mut Tx<'_, '_>, tell: TellOf, key: u64) -> Result<u32, Stop> {
        let Name { first, room, .. } = self.name;
        let mut told = 0;
        stopped(unsafe { tell(self.name.by(tx)?, first, room, key, &mut told) })?;
        Ok(told)
    }

    /// Whether a key is in it.
    pub fn contains(self, tx: &mut Tx<'_, '_>, key: u64) -> Result<bool, Stop> {
        Ok(self.told_of(tx, dstmc_set_contains, key)? == 1)
    }

    /// Inserts a key.
    pub fn insert(self, tx: &mut Tx<'_, '_>, key: u64) -> Result<Inserted, Stop> {
        Ok(match self.told_of(tx, dstmc_set_insert, key)? {
            0 => Inserted::New,
            1 => Inserted::There,
            _ => Inserted::Full,
        })
    }

    /// Takes a key out, and tells whether it was there.
    pub fn remove(self, tx: &mut Tx<'_, '_>, key: u64) -> Result<bool, Stop> {
        Ok(self.told_of(tx, dstmc_set_remove, key)? == 1)
    }

    fn told(self, tx: &mut Tx<'_, '_>, tell: Tell) -> Result<Option<u64>, Stop> {
        let Name { first, room, .. } = self.name;
        let (mut there, mut key) = (0, 0);
        stopped(unsafe { tell(self.name.by(tx)?, first, room, &mut there, &mut key) })?;
        Ok((there == 1).then_some(key))
    }

    fn told_by(self, tx: &mut Tx<'_, '_>, tell: TellBy, bound: u64) -> Result<Option<u64>, Stop> {
        let Name { first, room, .. } = self.name;
        let (mut there, mut key) = (0, 0);
        stopped(unsafe { tell(self.name.by(tx)?, first, room, bound, &mut there, &mut key) })?;
        Ok((there == 1).then_some(key))
    }

    /// The first key, if there is one.
    pub fn first(self, tx: &mut Tx<'_, '_>) -> Result<Option<u64>, Stop> {
        self.told(tx, dstmc_set_first)
    }

    /// The last key, if there is one.
    pub fn last(self, tx: &mut Tx<'_, '_>) -> Result<Option<u64>, Stop> {
        self.told(tx, dstmc_set_last)
    }

    /// The first key above this one, if there is one. The key itself need not be there.
    pub fn next_above(self, tx: &mut Tx<'_, '_>, key: u64) -> Result<Option<u64>, Stop> {
        self.told_by(tx, dstmc_set_next_above, key)
    }

    /// The last key below this one, if there is one. The key itself need not be there.
    pub fn next_below(self, tx: &mut Tx<'_, '_>, key: u64) -> Result<Option<u64>, Stop> {
        self.told_by(tx, dstmc_set_next_below, key)
    }

    /// Takes the first key out, and answers it, if there is one.
    pub fn pop_first(self, tx: &mut Tx<'_, '_>) -> Result<Option<u64>, Stop> {
        self.told(tx, dstmc_set_pop_first)
    }

    /// Takes the last key out, and answers it, if there is one.
    pub fn pop_last(self, tx: &mut Tx<'_, '_>) -> Result<Option<u64>, Stop> {
        self.told(tx, dstmc_set_pop_last)
    }

    /// The keys from this one on, in their order. It looks for each as it is asked for it; where that is stopped it says so,
    /// and ends.
    pub fn scan<'t, 'a, 'm>(self, tx: &'t mut Tx<'a, 'm>, from: u64) -> Keys<'t, 'a, 'm> {
        Keys {
            set: self,
            tx,
            from: Some(from),
        }
    }
}

/// What [`OrderedSet::scan`] answers.
pub struct Keys<'t, 'a, 'm> {
    set: OrderedSet,
    tx: &'t mut Tx<'a, 'm>,
    // The least key that may come next, if one may.
    from: Option<u64>,
}

impl Iterator for Keys<'_, '_, '_> {
    type Item = Result<u64, Stop>;

    fn next(&mut self) -> Option<Self::Item> {
        let found = match self.from.take()? {
            0 => self.set.first(self.tx),
            from => self.set.next_above(self.tx, from - 1),
        };
        if let Ok(Some(key)) = found {
            self.from = key.checked_add(1);
        }
        found.transpose()
    }
}

impl Memory {
    /// A new set, which has room for so many keys, at least 1. It takes three times as many cells, and one more: all of them
    /// are made, or none.
    pub fn ordered_set(&mut self, capacity: u32) -> Result<OrderedSet, Error> {
        Ok(OrderedSet {
            name: Name::new(self, capacity, dstmc_set_new)?,
        })
    }
}
