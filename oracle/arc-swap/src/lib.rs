//! A stand-in for the crate arc-swap, over a mutex: the part of its interface that the original uses.
use std::ops::Deref;
use std::sync::{Arc, Mutex, MutexGuard, PoisonError};

/// A shared value that can be replaced while others read it.
#[derive(Debug)]
pub struct ArcSwap<T> {
    current: Mutex<Arc<T>>,
}

/// A loaded value. It lives on when another is stored.
#[derive(Debug)]
pub struct Guard<P>(P);

impl<P> Deref for Guard<P> {
    type Target = P;

    fn deref(&self) -> &P {
        &self.0
    }
}

impl<T> ArcSwap<T> {
    pub fn from_pointee(value: T) -> ArcSwap<T> {
        ArcSwap {
            current: Mutex::new(Arc::new(value)),
        }
    }

    pub fn load(&self) -> Guard<Arc<T>> {
        Guard(Arc::clone(&self.lock()))
    }

    pub fn store(&self, next: Arc<T>) {
        *self.lock() = next;
    }

    // The mutex holds a whole `Arc` at all times, so a panic elsewhere leaves nothing half done.
    fn lock(&self) -> MutexGuard<'_, Arc<T>> {
        self.current.lock().unwrap_or_else(PoisonError::into_inner)
    }
}

#[cfg(test)]
mod tests {
    use super::*;

    #[test]
    fn a_guard_outlives_a_store() {
        let shared = ArcSwap::from_pointee(1);
        let first = shared.load();
        shared.store(Arc::new(2));
        assert_eq!((**first, **shared.load()), (1, 2));
    }
}
