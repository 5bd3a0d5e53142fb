//! Stands for the few names of the crate pgrx that aggregate_svecf32.rs uses. It is ours, and no evidence about that
//! crate. `error!` stops by a panic.
pub use standin_macros::pg_extern;

pub mod datum {
    use std::cell::RefCell;

    thread_local! {
        /// What was made since the last `reset`: a pointer, and how to free it.
        static MADE: RefCell<Vec<(*mut (), fn(*mut ()))>> = const { RefCell::new(Vec::new()) };
    }

    /// A pointer to a value, or none. The value lives until `reset`, as one in a memory context of PostgreSQL.
    #[derive(Clone, Copy)]
    pub struct Internal(*mut ());

    impl Internal {
        pub const NULL: Internal = Internal(std::ptr::null_mut());

        pub fn new<T: 'static>(x: T) -> Self {
            let pointer: *mut () = Box::into_raw(Box::new(x)).cast();
            let free: fn(*mut ()) = |p| drop(unsafe { Box::from_raw(p.cast::<T>()) });
            MADE.with_borrow_mut(|made| made.push((pointer, free)));
            Internal(pointer)
        }

        /// # Safety
        /// T is the type that was given to `new`, no other reference is live, and there was no `reset`.
        #[allow(clippy::mut_from_ref)]
        pub unsafe fn get_mut<T>(&self) -> Option<&mut T> {
            unsafe { self.0.cast::<T>().as_mut() }
        }
    }

    /// Frees all values of this thread.
    ///
    /// # Safety
    /// No pointer to one of them is used afterwards.
    pub unsafe fn reset() {
        for (pointer, free) in MADE.take() {
            free(pointer);
        }
    }
}

#[allow(non_snake_case)]
pub mod pg_sys {
    pub struct MemoryContextData;
    pub type FunctionCallInfo = *mut ();

    /// # Safety
    /// It touches nothing.
    pub unsafe fn AggCheckCallContext(_: FunctionCallInfo, _: *mut *mut MemoryContextData) -> i32 {
        1
    }

    /// # Safety
    /// It touches nothing.
    pub unsafe fn MemoryContextSwitchTo(c: *mut MemoryContextData) -> *mut MemoryContextData {
        c
    }
}

#[macro_export]
macro_rules! error {
    ($($t:tt)*) => { panic!($($t)*) };
}
