// Counts that threads share.
use outside::Gate;
use std::sync::atomic::{AtomicU64, Ordering};

const SPINS: u32 = 1_000_000_000;

/// A count of passes, puts or jobs, from 0. As a gate it counts its passes.
#[derive(Default, Drop)]
pub struct Count(AtomicU64);

impl Count {
    /// Counts one more, and returns the number before.
    pub fn add(&self) -> u64 {
        self.0.fetch_add(1, Ordering::SeqCst)
    }

    pub fn get(&self) -> u64 {
        self.0.load(Ordering::SeqCst)
    }

    /// Waits until it reaches a number. If it doesn't within a limited number of spins, `failures` counts one more.
    pub fn wait(&self, number: u64, failures: &Count) {
        for _ in 0..SPINS {
            if self.get() >= number {
                return;
            }
        }
        failures.add();
    }
}

impl Gate for Count {
    fn pass(&self, _worker: u32, _turn: u32) {
        self.add();
    }
}
