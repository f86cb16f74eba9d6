//! Tasks on several cores.

use std::collections::HashMap;
use std::sync::atomic::{AtomicUsize, Ordering};
use std::sync::mpsc;
use std::thread::{self, Builder};

/// The stack of a worker, in bytes: the library's share for the longest list is 1.1 MB.
const STACK: usize = 8 << 20;

/// How many tasks are done at a time if nothing is said: as many as there are cores.
pub fn cores() -> usize {
    thread::available_parallelism().map_or(1, usize::from)
}

/// Does the tasks, so many at a time, and gives what each gives, in order and as soon as it is there.
/// What is given may end it all. Where no more threads are to be had, those that there are do it.
pub fn in_order<T: Send, E>(
    tasks: usize,
    jobs: usize,
    task: impl Fn(usize) -> T + Sync,
    mut give: impl FnMut(T) -> Result<(), E>,
) -> Result<(), E> {
    let next = AtomicUsize::new(0);
    let (sender, receiver) = mpsc::channel();
    thread::scope(|scope| {
        let mut started = 0;
        for _ in 0..jobs.min(tasks) {
            let (sender, next, task) = (sender.clone(), &next, &task);
            let work = move || loop {
                let at = next.fetch_add(1, Ordering::Relaxed);
                // Where nobody listens any more, it is at an end.
                if at >= tasks || sender.send((at, task(at))).is_err() {
                    break;
                }
            };
            let worker = Builder::new().stack_size(STACK).spawn_scoped(scope, work);
            started += usize::from(worker.is_ok());
        }
        drop(sender);
        if started == 0 {
            return (0..tasks).try_for_each(|at| give(task(at)));
        }
        let mut waiting = HashMap::new();
        let given = (0..tasks).try_for_each(|at| {
            while !waiting.contains_key(&at) {
                let (done, given) = receiver.recv().expect("a worker is at each task");
                waiting.insert(done, given);
            }
            give(waiting.remove(&at).expect("it is there"))
        });
        drop(receiver);
        given
    })
}

#[cfg(test)]
mod tests {
    use super::*;

    #[test]
    fn what_is_given_comes_in_order() {
        for jobs in [1, 2, 3, 7, 200] {
            let mut given = Vec::new();
            let all = in_order(
                100,
                jobs,
                |at| at * at,
                |square| {
                    given.push(square);
                    Ok::<(), ()>(())
                },
            );
            assert_eq!(all, Ok(()));
            assert!(given.iter().copied().eq((0..100).map(|at| at * at)), "{jobs}");
        }
    }

    #[test]
    fn what_is_given_may_end_it() {
        for jobs in [1, 4] {
            let done = AtomicUsize::new(0);
            let task = |at| {
                done.fetch_add(1, Ordering::Relaxed);
                at
            };
            let ended =
                in_order(10_000_000, jobs, task, |at| if at < 9 { Ok(()) } else { Err(at) });
            assert_eq!(ended, Err(9));
            assert!(done.load(Ordering::Relaxed) < 10_000_000);
        }
    }
}
