//! Runs the jobs that wait in a queue.

mod queue;

use queue::Queue;

/// How often a job is tried.
const TRIES: u32 = 3;

/// Runs all jobs that wait, and counts those that are done.
pub fn run_all(jobs: &mut Queue, started: &mut Vec<u32>) -> u32 {
    let mut done = 0;
    loop {
        if jobs.len() == 0 {
            return done;
        }
        let job = jobs.take().unwrap();
        started.push(job);
        done += attempt(job, TRIES);
    }
}

/// Whether there is nothing to do.
pub fn is_idle(early: &Queue, late: &Queue) -> bool {
    early.len() == 0 && Queue::len(late) == 0
}

/// The number that a text spells.
pub fn number(text: &str) -> u32 {
    text.parse().unwrap()
}

/// 1 if a job is done in so many tries, else 0.
pub fn attempt(job: u32, tries: u32) -> u32 {
    (job < tries) as u32
}
