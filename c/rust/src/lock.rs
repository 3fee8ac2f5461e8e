//! One thread at a time uses the handle of a memory.
use crate::Handle;

#[cfg(feature = "std")]
mod with_std {
    use super::Handle;
    use std::ops::DerefMut;
    use std::sync::{Mutex, PoisonError};

    pub(crate) struct Lock(Mutex<Handle>);

    impl Lock {
        pub(crate) fn new(handle: Handle) -> Lock {
            Lock(Mutex::new(handle))
        }

        pub(crate) fn lock(&self) -> impl DerefMut<Target = Handle> + '_ {
            self.0.lock().unwrap_or_else(PoisonError::into_inner)
        }
    }
}

#[cfg(not(feature = "std"))]
mod without_std {
    use super::Handle;
    use core::cell::UnsafeCell;
    use core::hint::spin_loop;
    use core::ops::{Deref, DerefMut};
    use core::sync::atomic::{AtomicBool, Ordering};

    pub(crate) struct Lock {
        taken: AtomicBool,
        handle: UnsafeCell<Handle>,
    }

    // SAFETY: a handle may go to another thread, and no two threads have the guard at once.
    unsafe impl Sync for Lock {}

    pub(crate) struct Guard<'a>(&'a Lock);

    impl Lock {
        pub(crate) fn new(handle: Handle) -> Lock {
            Lock {
                taken: AtomicBool::new(false),
                handle: UnsafeCell::new(handle),
            }
        }

        pub(crate) fn lock(&self) -> impl DerefMut<Target = Handle> + '_ {
            while self.taken.swap(true, Ordering::Acquire) {
                spin_loop();
            }
            Guard(self)
        }
    }

    impl Deref for Guard<'_> {
        type Target = Handle;

        fn deref(&self) -> &Handle {
            // SAFETY: there is one guard at a time.
            unsafe { &*self.0.handle.get() }
        }
    }

    impl DerefMut for Guard<'_> {
        fn deref_mut(&mut self) -> &mut Handle {
            // SAFETY: there is one guard at a time.
            unsafe { &mut *self.0.handle.get() }
        }
    }

    impl Drop for Guard<'_> {
        fn drop(&mut self) {
            self.0.taken.store(false, Ordering::Release);
        }
    }
}

#[cfg(feature = "std")]
pub(crate) use with_std::Lock;
#[cfg(not(feature = "std"))]
pub(crate) use without_std::Lock;
