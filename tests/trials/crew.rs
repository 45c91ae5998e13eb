//! A crew: as many desks as there are processors, at which tasks are done side by side.

use crate::desks::{Desk, Programs};
use std::io;
use std::path::Path;
use std::sync::atomic::{AtomicUsize, Ordering};
use std::thread;

/// Desks at which tasks are done side by side.
pub struct Crew {
    desks: Vec<Desk>,
}

impl Crew {
    /// A desk for each processor, with folders in this one.
    pub fn new(programs: &Programs, folder: &Path) -> io::Result<Crew> {
        let count = thread::available_parallelism()?.get();
        let desks = (0..count).map(|k| Desk::new(programs, &folder.join(k.to_string())));
        Ok(Crew { desks: desks.collect::<io::Result<_>>()? })
    }

    /// A desk, for what is done alone.
    pub fn desk(&mut self) -> &mut Desk {
        &mut self.desks[0]
    }

    /// Does each of these tasks, and answers what came of them, in their order.
    pub fn each<T, A, F>(&mut self, tasks: &[T], work: F) -> io::Result<Vec<A>>
    where
        T: Sync,
        A: Send,
        F: Fn(&mut Desk, &T) -> io::Result<A> + Sync,
    {
        let next = AtomicUsize::new(0);
        let mut done = thread::scope(|scope| {
            let at = |desk| scope.spawn(|| do_tasks(desk, tasks, &next, &work));
            let threads: Vec<_> = self.desks.iter_mut().map(at).collect();
            let mut done = Vec::with_capacity(tasks.len());
            for thread in threads {
                done.extend(thread.join().map_err(|_| io::Error::other("a thread of the tester failed"))??);
            }
            Ok::<_, io::Error>(done)
        })?;
        done.sort_by_key(|(place, _)| *place);
        Ok(done.into_iter().map(|(_, answer)| answer).collect())
    }
}

// Does the next task until there is none, and answers each with its place.
fn do_tasks<T, A>(
    desk: &mut Desk,
    tasks: &[T],
    next: &AtomicUsize,
    work: &impl Fn(&mut Desk, &T) -> io::Result<A>,
) -> io::Result<Vec<(usize, A)>> {
    let mut done = Vec::new();
    loop {
        let place = next.fetch_add(1, Ordering::Relaxed);
        let Some(task) = tasks.get(place) else {
            return Ok(done);
        };
        done.push((place, work(desk, task)?));
    }
}
