//! Work shared out among threads.

use std::sync::atomic::{AtomicUsize, Ordering};
use std::thread;

/// Jobs under way at once for each processor: the programs under test often
/// wait for their next byte.
const JOBS_EACH: usize = 4;

/// Does each job and answers the results in the order of the jobs.
pub fn each<J: Sync, R: Send>(jobs: &[J], work: impl Fn(&J) -> R + Sync) -> Vec<R> {
    let next = AtomicUsize::new(0);
    let worker = || {
        let mut done = Vec::new();
        loop {
            let number = next.fetch_add(1, Ordering::Relaxed);
            let Some(job) = jobs.get(number) else {
                return done;
            };
            done.push((number, work(job)));
        }
    };
    let processors = thread::available_parallelism().map_or(1, |count| count.get());
    let mut done = thread::scope(|scope| {
        let workers: Vec<_> = (0..processors * JOBS_EACH)
            .map(|_| scope.spawn(worker))
            .collect();
        let joined = workers.into_iter().map(|worker| worker.join());
        joined
            .flat_map(|done| done.expect("no job panics"))
            .collect::<Vec<_>>()
    });
    done.sort_by_key(|(number, _)| *number);
    done.into_iter().map(|(_, result)| result).collect()
}
