//! What is made of cells.
mod map;
mod ordered;
mod pool;
mod queue;
mod set;

pub use map::{HashMap, Placed};
pub use ordered::{OrderedMap, Scan};
pub use pool::Pool;
pub use queue::Queue;
pub use set::{Inserted, Keys, OrderedSet};

use crate::{done, Error, Handle, Memory, Stop, Tx};

// A structure of a memory: the first of its cells, and how much it has room for.
#[derive(Clone, Copy, Debug)]
struct Name {
    memory: u64,
    first: u32,
    room: u32,
}

// What makes one, of so much room, and tells its first cell.
type Make = unsafe extern "C" fn(&mut Handle, u32, &mut u32) -> u32;

impl Name {
    fn new(memory: &mut Memory, room: u32, make: Make) -> Result<Name, Error> {
        let mut first = 0;
        done(unsafe { make(&mut memory.handle.lock(), room, &mut first) })?;
        Ok(Name {
            memory: memory.id,
            first,
            room,
        })
    }

    // The part by which a transaction makes a call on it.
    fn by<'t>(self, tx: &'t mut Tx<'_, '_>) -> Result<&'t mut Handle, Stop> {
        if self.memory == tx.thread.id {
            Ok(&mut tx.thread.handle)
        } else {
            Err(Stop::Failed(Error::Foreign))
        }
    }
}

// A structure that holds values of a type is a name, as a cell is one.
macro_rules! named {
    ($kind:ident) => {
        impl<T> Clone for $kind<T> {
            fn clone(&self) -> Self {
                *self
            }
        }

        impl<T> Copy for $kind<T> {}

        impl<T> core::fmt::Debug for $kind<T> {
            fn fmt(&self, f: &mut core::fmt::Formatter<'_>) -> core::fmt::Result {
                write!(f, "{}({}, {})", stringify!($kind), self.name.memory, self.name.first)
            }
        }
    };
}
use named;
