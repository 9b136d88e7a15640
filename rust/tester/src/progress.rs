//! Says now and then how far a run is, so that a long one is never silent.

use std::time::{Duration, Instant};

/// How long a run may be silent.
const SILENCE: Duration = Duration::from_secs(20);

pub struct Progress {
    began: Instant,
    said: Instant,
}

impl Progress {
    pub fn begin() -> Progress {
        let now = Instant::now();
        Progress { began: now, said: now }
    }

    /// Says how many queries are done, where nothing was said for a while.
    pub fn tell(&mut self, queries: usize) {
        if self.said.elapsed() >= SILENCE {
            println!("{queries} queries so far, {} s", self.began.elapsed().as_secs());
            self.said = Instant::now();
        }
    }
}
