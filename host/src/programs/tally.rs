//! The controller's own count: how often each call was executed.

use std::collections::HashMap;

/// The executions of every call, by activity and number.
#[derive(Default)]
pub struct Tally {
    calls: HashMap<([u8; 16], u32), Executed>,
}

struct Executed {
    idempotent: bool,
    times: u32,
}

impl Tally {
    /// Counts an execution. Gives how often this call was executed, this time included.
    pub fn add(&mut self, activity: [u8; 16], number: u32, idempotent: bool) -> u32 {
        let call = self.calls.entry((activity, number)).or_insert(Executed { idempotent: true, times: 0 });
        // A call that was once not idempotent must not be executed again, whatever the next request says.
        call.idempotent &= idempotent;
        call.times += 1;
        call.times
    }

    /// How many calls were executed.
    pub fn calls(&self) -> u64 {
        self.calls.len() as u64
    }

    /// How often calls were executed in all.
    pub fn executions(&self) -> u64 {
        self.calls.values().map(|call| u64::from(call.times)).sum()
    }

    /// How many calls that are not idempotent were executed more than once: never any.
    pub fn twice(&self) -> usize {
        self.calls.values().filter(|call| !call.idempotent && call.times > 1).count()
    }
}

#[cfg(test)]
mod tests {
    use super::*;

    #[test]
    fn calls_are_counted_by_activity_and_number() {
        let mut tally = Tally::default();
        assert_eq!(tally.add([1; 16], 0, true), 1);
        assert_eq!(tally.add([1; 16], 0, true), 2);
        assert_eq!(tally.add([2; 16], 0, false), 1);
        assert_eq!(tally.add([2; 16], 1, false), 1);
        assert_eq!((tally.calls(), tally.executions(), tally.twice()), (3, 4, 0));
    }

    #[test]
    fn a_call_not_idempotent_that_was_executed_twice_is_found() {
        let mut tally = Tally::default();
        tally.add([1; 16], 7, false);
        tally.add([1; 16], 7, false);
        tally.add([2; 16], 7, false);
        tally.add([2; 16], 7, true);
        assert_eq!(tally.twice(), 2);
    }
}
