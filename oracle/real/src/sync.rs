//! What the sources import: as the crate's own sync.rs has it with its feature `std`, and without loom.

pub(crate) use core::cell;
pub(crate) use core::sync::atomic;

pub(crate) mod prelude {
    use super::{atomic, cell};

    pub(crate) trait UnsafeCellExt {
        type Value;
        fn with_mut<R, F: FnOnce(*mut Self::Value) -> R>(&self, f: F) -> R;
    }

    impl<T> UnsafeCellExt for cell::UnsafeCell<T> {
        type Value = T;
        fn with_mut<R, F: FnOnce(*mut T) -> R>(&self, f: F) -> R {
            f(self.get())
        }
    }

    pub(crate) trait AtomicExt {
        type Value;
        fn with_mut<R, F: FnOnce(&mut Self::Value) -> R>(&mut self, f: F) -> R;
    }

    impl AtomicExt for atomic::AtomicUsize {
        type Value = usize;
        fn with_mut<R, F: FnOnce(&mut usize) -> R>(&mut self, f: F) -> R {
            f(self.get_mut())
        }
    }

    impl<T> AtomicExt for atomic::AtomicPtr<T> {
        type Value = *mut T;
        fn with_mut<R, F: FnOnce(&mut *mut T) -> R>(&mut self, f: F) -> R {
            f(self.get_mut())
        }
    }
}
