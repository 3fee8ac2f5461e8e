use super::{named, Name};
use crate::{stopped, Cell, Error, Handle, Memory, Stop, Tx, Word};
use core::marker::PhantomData;

extern "C" {
    fn dstmc_pool_new(memory: &mut Handle, cells: u32, first: &mut u32) -> u32;
    fn dstmc_pool_take(
        thread: &mut Handle, first: u32, cells: u32, from: u64, low: u64, high: u64, there: &mut u32, cell: &mut u32,
    ) -> u32;
    fn dstmc_pool_give(thread: &mut Handle, first: u32, cells: u32, cell: u32, given: &mut u32) -> u32;
}

/// A pool of cells, out of which transactions take new cells while threads have parts, and give them back: a name, copies
/// of which name the same pool. A call on it is a part of a transaction.
///
/// ```
/// let mut memory = dstm::Memory::new(1)?;
/// let pool = memory.pool::<u64>(2)?;
/// let mut me = memory.thread()?;
/// let cell = me.atomically(|tx| pool.take(tx, 5))?;
/// assert_eq!(me.atomically(|tx| tx.get(cell)), Ok(5));
/// me.atomically(|tx| pool.give(tx, cell))?;
/// # Ok::<(), dstm::Error>(())
/// ```
pub struct Pool<T> {
    name: Name,
    holds: PhantomData<fn() -> T>,
}
named!(Pool);

impl<T: Word> Pool<T> {
    /// How many cells it has, with those that are taken.
    pub fn capacity(self) -> u32 {
        self.name.room
    }

    /// Takes a cell, which holds this value, if one is left: the first one that is not taken, from a place on that comes by
    /// chance. It is taken where the transaction takes effect.
    pub fn try_take(self, tx: &mut Tx<'_, '_>, value: T) -> Result<Option<Cell<T>>, Stop> {
        let Name { memory, first, room } = self.name;
        let (low, high) = value.to_words();
        let from = tx.thread.chance();
        let (mut there, mut object) = (0, 0);
        let me = self.name.by(tx)?;
        stopped(unsafe { dstmc_pool_take(me, first, room, from, low, high, &mut there, &mut object) })?;
        let taken = Cell {
            memory,
            object,
            holds: PhantomData,
        };
        Ok((there == 1).then_some(taken))
    }

    /// Takes a cell, which holds this value, once one is left.
    pub fn take(self, tx: &mut Tx<'_, '_>, value: T) -> Result<Cell<T>, Stop> {
        match self.try_take(tx, value)? {
            Some(cell) => Ok(cell),
            None => tx.retry(),
        }
    }

    /// Gives a cell back. `Foreign` where it is none of the pool's, or was not taken.
    pub fn give(self, tx: &mut Tx<'_, '_>, cell: Cell<T>) -> Result<(), Stop> {
        let Name { memory, first, room } = self.name;
        let mut given = 0;
        if cell.memory == memory {
            let me = self.name.by(tx)?;
            stopped(unsafe { dstmc_pool_give(me, first, room, cell.object, &mut given) })?;
        }
        if given == 1 {
            Ok(())
        } else {
            Err(Stop::Failed(Error::Foreign))
        }
    }
}

impl Memory {
    /// A new pool of so many cells, at least 1. It takes twice as many: all of them are made, or none.
    pub fn pool<T: Word>(&mut self, cells: u32) -> Result<Pool<T>, Error> {
        Ok(Pool {
            name: Name::new(self, cells, dstmc_pool_new)?,
            holds: PhantomData,
        })
    }
}
