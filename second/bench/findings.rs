//! How many events there were, and which of them differed.

use super::difference::Difference;

/// So many differences are told; the others are counted.
const TOLD: usize = 5;

#[derive(Default)]
pub struct Findings {
    pub events: u64,
    pub differences: u64,
    told: Vec<String>,
    /// How often demand 3 did not hold.
    pub broken: u64,
}

impl Findings {
    /// An event that differs, if it does.
    pub fn add(&mut self, difference: Option<Difference>) {
        self.events += 1;
        if let Some(difference) = difference {
            self.differences += 1;
            if self.told.len() < TOLD {
                self.told
                    .push(format!("event {}: {difference}", self.events));
            }
        }
    }

    /// Demand 3 does not hold after the last event.
    pub fn break_demand(&mut self, broken: String) {
        self.broken += 1;
        if self.told.len() < TOLD {
            self.told
                .push(format!("event {}: demand 3 fails: {broken}\n", self.events));
        }
    }

    /// The first few differences, as they are told.
    pub fn told(&self) -> &[String] {
        &self.told
    }
}
