//! Timers and the tickets that they are armed with.

/// The ticket that the timer is armed with, if it is armed.
pub type Timer = Option<u64>;

/// Both machines try again at most so often.
pub const RETRY_LIMIT: u8 = 5;

/// The ticket counter, which no event resets.
#[derive(Clone, Copy, Debug, PartialEq, Eq)]
pub struct Tickets {
    pub counter: u64,
}

impl Tickets {
    pub fn are_used_up(self) -> bool {
        self.counter == u64::MAX
    }

    /// Whether a timer, if it is armed, can have got its ticket from here.
    pub fn reach(self, timer: Timer) -> bool {
        timer.is_none_or(|ticket| ticket <= self.counter)
    }

    /// Arming adds one to the counter and stores it as the ticket.
    pub fn arm(&mut self) -> Timer {
        self.counter += 1;
        Some(self.counter)
    }
}
