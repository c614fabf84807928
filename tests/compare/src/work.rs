//! Pieces of work on several threads.

use std::sync::atomic::{AtomicUsize, Ordering};
use std::sync::Mutex;

/// What `piece` gives for 0 to `pieces` − 1, in that order, done on so many threads; earlier pieces begin first.
pub fn done<T: Send>(pieces: usize, threads: usize, piece: impl Fn(usize) -> T + Sync) -> Vec<T> {
    let next = AtomicUsize::new(0);
    let results: Mutex<Vec<Option<T>>> = Mutex::new((0..pieces).map(|_| None).collect());
    std::thread::scope(|scope| {
        for _ in 0..threads {
            scope.spawn(|| loop {
                let i = next.fetch_add(1, Ordering::Relaxed);
                if i >= pieces {
                    return;
                }
                let result = piece(i);
                results.lock().expect("no thread panics")[i] = Some(result);
            });
        }
    });
    let results = results.into_inner().expect("no thread panics");
    results.into_iter().map(|result| result.expect("every piece is done")).collect()
}
