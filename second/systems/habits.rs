//! What the hosts of a run like to do.

use crate::generate::random::Random;

/// In how many of a hundred cases, but for faults and cancels: these say how often beside others.
#[derive(Clone, Copy)]
pub struct Habits {
    /// Calls that are idempotent.
    pub idempotent: usize,
    /// Messages of several fragments, whatever else may be.
    pub several: usize,
    /// How often a call is answered by a fault, beside 40 replies.
    pub faults: usize,
    /// The same where the call is cancelled. The stub may heed that, or go on.
    pub faults_of_cancelled: usize,
    /// How often the client cancels the call that it has under way.
    pub cancels: usize,
}

/// Those of the last two let one call be answered in different ways.
const HABITS: [Habits; 4] = [
    Habits {
        idempotent: 50,
        several: 0,
        faults: 10,
        faults_of_cancelled: 80,
        cancels: 4,
    },
    Habits {
        idempotent: 30,
        several: 50,
        faults: 10,
        faults_of_cancelled: 10,
        cancels: 15,
    },
    Habits {
        idempotent: 98,
        several: 40,
        faults: 40,
        faults_of_cancelled: 40,
        cancels: 1,
    },
    Habits {
        idempotent: 98,
        several: 50,
        faults: 15,
        faults_of_cancelled: 60,
        cancels: 8,
    },
];

impl Habits {
    pub fn any(random: &mut Random) -> Habits {
        random.pick(&HABITS)
    }
}
