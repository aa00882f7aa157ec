//! A queue of jobs.

use crate::attempt;

/// Jobs that wait, the next one last.
pub struct Queue {
    jobs: Vec<u32>,
}

impl Queue {
    pub fn len(&self) -> usize {
        self.jobs.len()
    }

    pub fn is_empty(&self) -> bool {
        self.jobs.len() == 0
    }

    pub fn take(&mut self) -> Option<u32> {
        self.jobs.pop()
    }

    /// Tries the next job once, and leaves it where it is.
    pub fn probe(&self) -> u32 {
        attempt(*self.jobs.last().unwrap(), 1)
    }
}

/// As `attempt`, for a job of a queue.
pub fn run(job: u32, tries: u32) -> u32 {
    if tries == 0 { 0 } else { (job < tries) as u32 }
}
