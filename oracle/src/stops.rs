//! What can unwind through the Rust, told apart.
use std::any::Any;
use std::cell::RefCell;
use std::panic::{catch_unwind, AssertUnwindSafe, PanicHookInfo};

use crate::play::{DoubleBorrow, EndOfPlay};

#[derive(Debug)]
pub enum Stop {
    EndOfPlay,
    DoubleBorrow,
    /// With its message and place.
    Panic(String),
}

thread_local! {
    static LAST_PANIC: RefCell<String> = RefCell::default();
}

/// Panics are kept, not printed: some of them are numbers of causes.
pub fn keep_panics() {
    std::panic::set_hook(Box::new(|info: &PanicHookInfo| {
        LAST_PANIC.set(info.to_string())
    }));
}

pub fn caught<R>(f: impl FnOnce() -> R) -> Result<R, Stop> {
    catch_unwind(AssertUnwindSafe(f)).map_err(|payload: Box<dyn Any + Send>| {
        if payload.is::<EndOfPlay>() {
            Stop::EndOfPlay
        } else if payload.is::<DoubleBorrow>() {
            Stop::DoubleBorrow
        } else {
            Stop::Panic(LAST_PANIC.take())
        }
    })
}
