//! A host's timer: it follows the ticket that the record has armed.

use std::time::{Duration, Instant};

/// One timer of one record.
pub struct Timer {
    length: Duration,
    running: Option<Running>,
}

#[derive(Clone, Copy)]
struct Running {
    ticket: u64,
    until: Instant,
}

impl Timer {
    /// A timer that runs so long each time. It stands still.
    pub fn new(length: Duration) -> Timer {
        Timer { length, running: None }
    }

    /// Call it after each event with the ticket armed: another ticket starts the timer anew, none stops it, and the
    /// same one lets it run.
    pub fn follow(&mut self, armed: Option<u64>, now: Instant) {
        let ticket = self.running.map(|running| running.ticket);
        if armed != ticket {
            self.running = armed.map(|ticket| Running { ticket, until: now + self.length });
        }
    }

    /// When it runs out, if it runs.
    pub fn until(&self) -> Option<Instant> {
        self.running.map(|running| running.until)
    }

    /// If it has run out: the ticket it was started with, once.
    pub fn run_out(&mut self, now: Instant) -> Option<u64> {
        let running = self.running.filter(|running| running.until <= now)?;
        self.running = None;
        Some(running.ticket)
    }
}

#[cfg(test)]
mod tests {
    use super::*;

    const LENGTH: Duration = Duration::from_millis(100);

    #[test]
    fn it_runs_out_once_with_its_ticket() {
        let now = Instant::now();
        let mut timer = Timer::new(LENGTH);
        assert_eq!(timer.run_out(now + LENGTH), None);
        timer.follow(Some(7), now);
        assert_eq!(timer.run_out(now + LENGTH / 2), None);
        assert_eq!(timer.run_out(now + LENGTH), Some(7));
        assert_eq!(timer.run_out(now + LENGTH), None);
    }

    #[test]
    fn the_same_ticket_lets_it_run() {
        let now = Instant::now();
        let mut timer = Timer::new(LENGTH);
        timer.follow(Some(7), now);
        timer.follow(Some(7), now + LENGTH / 2);
        assert_eq!(timer.until(), Some(now + LENGTH));
    }

    #[test]
    fn another_ticket_starts_it_anew_and_none_stops_it() {
        let now = Instant::now();
        let mut timer = Timer::new(LENGTH);
        timer.follow(Some(7), now);
        timer.follow(Some(8), now + LENGTH / 2);
        assert_eq!(timer.until(), Some(now + LENGTH / 2 + LENGTH));
        timer.follow(None, now + LENGTH);
        assert_eq!(timer.until(), None);
        assert_eq!(timer.run_out(now + LENGTH * 2), None);
    }
}
