//! Work on a few threads.

use std::thread;

/// Threads of every command.
pub const THREADS: u64 = 2;

/// The check follows messages through newtypes through types without end in
/// sight, so its stack may grow long; room is taken only as it is used.
const STACK: usize = 2 << 30;

/// Runs `work` once on each thread, told its number, and answers all results.
pub fn in_parallel<T: Send>(work: impl Fn(u64) -> T + Sync) -> Vec<T> {
    let work = &work;
    thread::scope(|scope| {
        let spawn = |worker| {
            let builder = thread::Builder::new().stack_size(STACK);
            builder.spawn_scoped(scope, move || work(worker))
        };
        let workers: Vec<_> = (0..THREADS).map(spawn).collect();
        let join = |worker: std::io::Result<thread::ScopedJoinHandle<'_, T>>| {
            let worker = worker.expect("the system starts a thread");
            worker
                .join()
                .unwrap_or_else(|panic| std::panic::resume_unwind(panic))
        };
        workers.into_iter().map(join).collect()
    })
}

/// Runs `work` on one thread of the same long stack.
pub fn on_long_stack<T: Send>(work: impl FnOnce() -> T + Send) -> T {
    thread::scope(|scope| {
        let builder = thread::Builder::new().stack_size(STACK);
        let worker = builder.spawn_scoped(scope, work);
        let worker = worker.expect("the system starts a thread");
        worker
            .join()
            .unwrap_or_else(|panic| std::panic::resume_unwind(panic))
    })
}
