// Holds: work done on a thread with a stack of its own.
// Rests on: std.

use std::thread::{Builder, Scope, ScopedJoinHandle};

/// A call by value has several boards of 95 kB on its stack, and the model's boards are larger: a test's thread has 2 MB.
const STACK: usize = 16 << 20;

/// Begins the work on a thread with so large a stack.
pub fn begin<'scope, T: Send + 'scope>(
    scope: &'scope Scope<'scope, '_>,
    work: impl FnOnce() -> T + Send + 'scope,
) -> ScopedJoinHandle<'scope, T> {
    let thread = Builder::new().stack_size(STACK);
    let begun = thread.spawn_scoped(scope, work);
    begun.expect("there is room for another stack")
}

/// Does the work on a thread with so large a stack. If it panics, so does this.
pub fn on_large_stack<T: Send>(work: impl FnOnce() -> T + Send) -> T {
    std::thread::scope(|scope| match begin(scope, work).join() {
        Ok(done) => done,
        Err(panic) => std::panic::resume_unwind(panic),
    })
}
