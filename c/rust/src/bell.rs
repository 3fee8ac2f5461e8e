//! The bell of a memory, by which a commit wakes the threads that wait.
use crate::Error;
use core::time::Duration;

#[cfg(feature = "std")]
mod with_std {
    use super::{Duration, Error};
    use core::hint::spin_loop;
    use core::sync::atomic::{AtomicU64, Ordering};
    use std::sync::{Condvar, Mutex, MutexGuard, PoisonError};
    use std::thread::sleep;
    use std::time::Instant;

    const LEAST: Duration = Duration::from_millis(1);
    const MOST: Duration = Duration::from_millis(100);
    // So long a thread looks before it sleeps.
    const AWAKE: Duration = Duration::from_micros(2);
    // So often it pauses before it sleeps, where it gives way.
    const PAUSES: u32 = 2;
    const NAP: Duration = Duration::from_micros(50);
    const DOUBLINGS: u32 = 4;

    pub(crate) struct Bell {
        // Counts the rings by two, and is odd where somebody sleeps, or is about to.
        word: AtomicU64,
        lock: Mutex<()>,
        rung: Condvar,
    }

    impl Bell {
        pub(crate) fn new() -> Bell {
            Bell {
                word: AtomicU64::new(0),
                lock: Mutex::new(()),
                rung: Condvar::new(),
            }
        }

        fn lock(&self) -> MutexGuard<'_, ()> {
            self.lock.lock().unwrap_or_else(PoisonError::into_inner)
        }

        // Wakes who sleeps.
        pub(crate) fn ring(&self) {
            let word = self.word.load(Ordering::SeqCst);
            if word & 1 == 1 {
                self.wake(word);
            }
        }

        #[cold]
        fn wake(&self, word: u64) {
            let lock = self.lock();
            // Where it is another one by now, somebody else has rung.
            let _ = self.word.compare_exchange(word, word + 1, Ordering::SeqCst, Ordering::SeqCst);
            drop(lock);
            self.rung.notify_all();
        }

        // From here on each commit rings.
        fn announce(&self) -> u64 {
            self.word.fetch_or(1, Ordering::SeqCst) | 1
        }

        // Sleeps until it is rung, or for so long.
        fn sleep(&self, word: u64, time: Duration) {
            let lock = self.lock();
            if self.word.load(Ordering::SeqCst) == word {
                drop(self.rung.wait_timeout(lock, time));
            }
        }

        // Waits until a look has told something, for so long at most. Who announces looks once more before it sleeps, so
        // that no change is missed.
        pub(crate) fn wait(
            &self,
            patience: Duration,
            mut look: impl FnMut() -> Result<bool, Error>,
        ) -> Result<(), Error> {
            let begun = Instant::now();
            let mut waited = Duration::ZERO;
            loop {
                let announced = (waited >= AWAKE).then(|| self.announce());
                if look()? {
                    return Ok(());
                }
                if waited >= patience {
                    return Err(Error::Idle);
                }
                match announced {
                    Some(word) => self.sleep(word, waited.clamp(LEAST, MOST).min(patience - waited)),
                    None => spin_loop(),
                }
                waited = begun.elapsed();
            }
        }
    }

    // Gives way, the so-manieth time in a row: pauses twice, and then naps for 50 us, 100, .. 800 us, 1 ms. A yield would
    // give a whole slice of time away where other programs keep the processor busy.
    pub(crate) fn give_way(times: u32) {
        match times.checked_sub(PAUSES + 1) {
            None => (0..32u32 << times).for_each(|_| spin_loop()),
            Some(naps) if naps <= DOUBLINGS => sleep(NAP * (1 << naps)),
            Some(_) => sleep(LEAST),
        }
    }
}

#[cfg(not(feature = "std"))]
mod without_std {
    use super::{Duration, Error};
    use core::hint::spin_loop;

    const LOOKS: u32 = 1_048_576;
    const MOST_DOUBLINGS: u32 = 6;

    // There is none: who waits looks, so often at most.
    pub(crate) struct Bell;

    impl Bell {
        pub(crate) fn new() -> Bell {
            Bell
        }

        pub(crate) fn ring(&self) {}

        pub(crate) fn wait(
            &self,
            _patience: Duration,
            mut look: impl FnMut() -> Result<bool, Error>,
        ) -> Result<(), Error> {
            for _ in 0..LOOKS {
                spin_loop();
                if look()? {
                    return Ok(());
                }
            }
            Err(Error::Idle)
        }
    }

    pub(crate) fn give_way(times: u32) {
        (0..1u32 << times.min(MOST_DOUBLINGS)).for_each(|_| spin_loop());
    }
}

#[cfg(feature = "std")]
pub(crate) use with_std::{give_way, Bell};
#[cfg(not(feature = "std"))]
pub(crate) use without_std::{give_way, Bell};
