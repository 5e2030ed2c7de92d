//! Readings and listings of every nesting run in a thread of 2 MiB, which is what Rust gives a thread by
//! default.

use std::panic::resume_unwind;
use std::thread::Builder;

/// The stack that a call may count on, in bytes. The most that was measured is a listing's: 1,248 KiB at
/// nesting 4,096.
pub const STACK_BYTES: usize = 2 << 20;

/// Does `work` in a thread with that stack and gives back what it gives.
pub fn on_small_stack<T: Send + 'static>(work: impl FnOnce() -> T + Send + 'static) -> T {
    on_stack_of(STACK_BYTES, work)
}

/// Does `work` in a thread with a stack of so many bytes. A panic there is a panic here.
pub fn on_stack_of<T: Send + 'static>(
    bytes: usize,
    work: impl FnOnce() -> T + Send + 'static,
) -> T {
    let thread = Builder::new().stack_size(bytes).spawn(work);
    let thread = thread.expect("a thread can be started");
    thread.join().unwrap_or_else(|panic| resume_unwind(panic))
}
