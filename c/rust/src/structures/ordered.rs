use super::{named, Name, Placed};
use crate::{stopped, Error, Handle, Memory, Stop, Tx, Word};
use core::marker::PhantomData;

extern "C" {
    fn dstmc_ordered_new(memory: &mut Handle, capacity: u32, first: &mut u32) -> u32;
    fn dstmc_ordered_get(
        thread: &mut Handle, first: u32, capacity: u32, key: u64, there: &mut u32, low: &mut u64, high: &mut u64,
    ) -> u32;
    fn dstmc_ordered_contains(thread: &mut Handle, first: u32, capacity: u32, key: u64, there: &mut u32) -> u32;
    fn dstmc_ordered_put(
        thread: &mut Handle, first: u32, capacity: u32, key: u64, low: u64, high: u64,
        placed: &mut u32, had_low: &mut u64, had_high: &mut u64,
    ) -> u32;
    fn dstmc_ordered_remove(
        thread: &mut Handle, first: u32, capacity: u32, key: u64, there: &mut u32, low: &mut u64, high: &mut u64,
    ) -> u32;
    fn dstmc_ordered_len(thread: &mut Handle, first: u32, capacity: u32, len: &mut u32) -> u32;
    fn dstmc_ordered_first(
        thread: &mut Handle, first: u32, capacity: u32, there: &mut u32, key: &mut u64, low: &mut u64, high: &mut u64,
    ) -> u32;
    fn dstmc_ordered_last(
        thread: &mut Handle, first: u32, capacity: u32, there: &mut u32, key: &mut u64, low: &mut u64, high: &mut u64,
    ) -> u32;
    fn dstmc_ordered_next_above(
        thread: &mut Handle, first: u32, capacity: u32, bound: u64,
        there: &mut u32, key: &mut u64, low: &mut u64, high: &mut u64,
    ) -> u32;
    fn dstmc_ordered_next_below(
        thread: &mut Handle, first: u32, capacity: u32, bound: u64,
        there: &mut u32, key: &mut u64, low: &mut u64, high: &mut u64,
    ) -> u32;
    fn dstmc_ordered_pop_first(
        thread: &mut Handle, first: u32, capacity: u32, there: &mut u32, key: &mut u64, low: &mut u64, high: &mut u64,
    ) -> u32;
    fn dstmc_ordered_pop_last(
        thread: &mut Handle, first: u32, capacity: u32, there: &mut u32, key: &mut u64, low: &mut u64, high: &mut u64,
    ) -> u32;
}

/// A map from numbers to at most so many values that also tells its keys by their order, in the cells of a memory: a name,
/// copies of which name the same map. A call on it is a part of a transaction. It looks a key up as a [`HashMap`] does; a
/// call by order, and one that adds a key or takes one out, reads at most 64 forks of a tree besides, as many as the keys
/// have bits.
///
/// ```
/// let mut memory = dstm::Memory::new(1)?;
/// let map = memory.ordered_map::<u64>(8)?;
/// let mut me = memory.thread()?;
/// me.atomically(|tx| {
///     for key in [30, 10, 20] {
///         map.put(tx, key, key + 1)?;
///     }
///     Ok(())
/// })?;
/// let from_20 = me.atomically(|tx| map.scan(tx, 20).collect::<Result<Vec<_>, _>>())?;
/// assert_eq!(from_20, [(20, 21), (30, 31)]);
/// assert_eq!(me.atomically(|tx| map.pop_first(tx)), Ok(Some((10, 11))));
/// # Ok::<(), dstm::Error>(())
/// ```
///
/// [`HashMap`]: crate::HashMap
pub struct OrderedMap<V> {
    name: Name,
    holds: PhantomData<fn() -> V>,
}
named!(OrderedMap);

// What tells a key with its value, and whether there is one.
type Tell = unsafe extern "C" fn(&mut Handle, u32, u32, &mut u32, &mut u64, &mut u64, &mut u64) -> u32;
// The same of one that stands to a bound as the call says.
type TellBy = unsafe extern "C" fn(&mut Handle, u32, u32, u64, &mut u32, &mut u64, &mut u64, &mut u64) -> u32;

impl<V: Word> OrderedMap<V> {
    /// How many keys it has room for.
    pub fn capacity(self) -> u32 {
        self.name.room
    }

    /// How many keys it has. It looks at each place, so that each transaction that adds a key or takes one out stands in its
    /// way.
    pub fn len(self, tx: &mut Tx<'_, '_>) -> Result<u64, Stop> {
        let Name { first, room, .. } = self.name;
        let mut len = 0;
        stopped(unsafe { dstmc_ordered_len(self.name.by(tx)?, first, room, &mut len) })?;
        Ok(len.into())
    }

    /// The value of a key, if the key is there.
    pub fn get(self, tx: &mut Tx<'_, '_>, key: u64) -> Result<Option<V>, Stop> {
        let Name { first, room, .. } = self.name;
        let (mut there, mut low, mut high) = (0, 0, 0);
        stopped(unsafe { dstmc_ordered_get(self.name.by(tx)?, first, room, key, &mut there, &mut low, &mut high) })?;
        Ok((there == 1).then(|| V::from_words(low, high)))
    }

    /// Whether a key is there.
    pub fn contains(self, tx: &mut Tx<'_, '_>, key: u64) -> Result<bool, Stop> {
        let Name { first, room, .. } = self.name;
        let mut there = 0;
        stopped(unsafe { dstmc_ordered_contains(self.name.by(tx)?, first, room, key, &mut there) })?;
        Ok(there == 1)
    }

    /// Gives a key this value, and adds the key where it is not there.
    pub fn put(self, tx: &mut Tx<'_, '_>, key: u64, value: V) -> Result<Placed<V>, Stop> {
        let Name { first, room, .. } = self.name;
        let (low, high) = value.to_words();
        let (mut placed, mut had_low, mut had_high) = (0, 0, 0);
        let me = self.name.by(tx)?;
        stopped(unsafe {
            dstmc_ordered_put(me, first, room, key, low, high, &mut placed, &mut had_low, &mut had_high)
        })?;
        Ok(Placed::of(placed, had_low, had_high))
    }

    /// Takes a key out, and answers its value, if the key is there.
    pub fn remove(self, tx: &mut Tx<'_, '_>, key: u64) -> Result<Option<V>, Stop> {
        let Name { first, room, .. } = self.name;
        let (mut there, mut low, mut high) = (0, 0, 0);
        let me = self.name.by(tx)?;
        stopped(unsafe { dstmc_ordered_remove(me, first, room, key, &mut there, &mut low, &mut high) })?;
        Ok((there == 1).then(|| V::from_words(low, high)))
    }

    fn told(self, tx: &mut Tx<'_, '_>, tell: Tell) -> Result<Option<(u64, V)>, Stop> {
        let Name { first, room, .. } = self.name;
        let (mut there, mut key, mut low, mut high) = (0, 0, 0, 0);
        stopped(unsafe { tell(self.name.by(tx)?, first, room, &mut there, &mut key, &mut low, &mut high) })?;
        Ok((there == 1).then(|| (key, V::from_words(low, high))))
    }

    fn told_by(self, tx: &mut Tx<'_, '_>, tell: TellBy, bound: u64) -> Result<Option<(u64, V)>, Stop> {
        let Name { first, room, .. } = self.name;
        let (mut there, mut key, mut low, mut high) = (0, 0, 0, 0);
        stopped(unsafe { tell(self.name.by(tx)?, first, room, bound, &mut there, &mut key, &mut low, &mut high) })?;
        Ok((there == 1).then(|| (key, V::from_words(low, high))))
    }

    /// The first key with its value, if there is one.
    pub fn first(self, tx: &mut Tx<'_, '_>) -> Result<Option<(u64, V)>, Stop> {
        self.told(tx, dstmc_ordered_first)
    }

    /// The last key with its value, if there is one.
    pub fn last(self, tx: &mut Tx<'_, '_>) -> Result<Option<(u64, V)>, Stop> {
        self.told(tx, dstmc_ordered_last)
    }

    /// The first key above this one with its value, if there is one. The key itself need not be there.
    pub fn next_above(self, tx: &mut Tx<'_, '_>, key: u64) -> Result<Option<(u64, V)>, Stop> {
        self.told_by(tx, dstmc_ordered_next_above, key)
    }

    /// The last key below this one with its value, if there is one. The key itself need not be there.
    pub fn next_below(self, tx: &mut Tx<'_, '_>, key: u64) -> Result<Option<(u64, V)>, Stop> {
        self.told_by(tx, dstmc_ordered_next_below, key)
    }

    /// Takes the first key out, and answers it with its value, if there is one.
    pub fn pop_first(self, tx: &mut Tx<'_, '_>) -> Result<Option<(u64, V)>, Stop> {
        self.told(tx, dstmc_ordered_pop_first)
    }

    /// Takes the last key out, and answers it with its value, if there is one.
    pub fn pop_last(self, tx: &mut Tx<'_, '_>) -> Result<Option<(u64, V)>, Stop> {
        self.told(tx, dstmc_ordered_pop_last)
    }

    /// The keys from this one on with their values, in their order. It looks for each as it is asked for it; where that is
    /// stopped it says so, and ends.
    pub fn scan<'t, 'a, 'm>(self, tx: &'t mut Tx<'a, 'm>, from: u64) -> Scan<'t, 'a, 'm, V> {
        Scan {
            map: self,
            tx,
            from: Some(from),
        }
    }
}

/// What [`OrderedMap::scan`] answers.
pub struct Scan<'t, 'a, 'm, V> {
    map: OrderedMap<V>,
    tx: &'t mut Tx<'a, 'm>,
    // The least key that may come next, if one may.
    from: Option<u64>,
}

impl<V: Word> Iterator for Scan<'_, '_, '_, V> {
    type Item = Result<(u64, V), Stop>;

    fn next(&mut self) -> Option<Self::Item> {
        let found = match self.from.take()? {
            0 => self.map.first(self.tx),
            from => self.map.next_above(self.tx, from - 1),
        };
        if let Ok(Some((key, _))) = found {
            self.from = key.checked_add(1);
        }
        found.transpose()
    }
}

impl Memory {
    /// A new ordered map, which has room for so many keys, at least 1. It takes three times as many cells, and one more: all
    /// of them are made, or none.
    pub fn ordered_map<V: Word>(&mut self, capacity: u32) -> Result<OrderedMap<V>, Error> {
        Ok(OrderedMap {
            name: Name::new(self, capacity, dstmc_ordered_new)?,
            holds: PhantomData,
        })
    }
}
