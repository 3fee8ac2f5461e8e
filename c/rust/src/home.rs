//! The memory of a part.
use crate::Memory;
use core::ops::Deref;

pub(crate) enum Home<'m> {
    Lent(&'m Memory),
    #[cfg(feature = "std")]
    Held(std::sync::Arc<Memory>),
}

impl Deref for Home<'_> {
    type Target = Memory;

    fn deref(&self) -> &Memory {
        match self {
            Home::Lent(memory) => memory,
            #[cfg(feature = "std")]
            Home::Held(memory) => memory,
        }
    }
}
