//! The client with what the host owns for it: socket, timers, and when to stop or give up.

use crate::stop::{Stop, LINES_READ_AHEAD};
use morphelai::programs::network::{Network, RECEIVE_SIZE};
use morphelai::programs::operations::Answer;
use morphelai::programs::random::new_activity;
use morphelai::programs::timer::Timer;
use morphelai::programs::{say, Failure};
use morphelai::{Call, Client, ClientState, ClientTimer, Notice};
use std::net::SocketAddrV4;
use std::time::{Duration, Instant};

pub struct Caller {
    client: Client,
    activity: [u8; 16],
    peer: SocketAddrV4,
    network: Network,
    wait: Timer,
    ack: Timer,
    cancel: Timer,
    stop: Stop,
    cancel_sent: bool,
    end: Option<Instant>,
}

/// How long the timers run, how long after a call's start stop is pressed, and how long the program runs.
pub struct Spans {
    pub wait: Duration,
    pub ack: Duration,
    pub cancel: Duration,
    pub stop: Option<Duration>,
    pub seconds: Option<Duration>,
}

/// How a call ended.
pub enum End {
    Answered(Answer),
    Failed(String),
}

impl Caller {
    /// A client of a new activity, for the controller at that address.
    pub fn new(peer: SocketAddrV4, network: Network, spans: &Spans) -> Result<Caller, Failure> {
        let activity = new_activity()?;
        let client = Client::new(&activity, 0).map_err(|refusal| Failure::Failed(format!("no client: {refusal}")))?;
        Ok(Caller {
            client,
            activity,
            peer,
            network,
            wait: Timer::new(spans.wait),
            ack: Timer::new(spans.ack),
            cancel: Timer::new(spans.cancel),
            stop: Stop::new(spans.stop)?,
            cancel_sent: false,
            end: spans.seconds.map(|seconds| Instant::now() + seconds),
        })
    }

    /// Makes one call and waits for its end. The protocol's own timers bound it, but while the controller says that it
    /// is working; then `--seconds` does.
    pub fn call(&mut self, call: &Call, request: &[u8]) -> Result<End, Failure> {
        // What was pressed before this call is not for this call.
        for _ in 0..LINES_READ_AHEAD {
            self.look_for_stop()?;
        }
        let started = self.client.start(call, request);
        if let Some(refusal) = started.refusal() {
            return Ok(End::Failed(format!("not started: refused {refusal}")));
        }
        let number = self.client.number();
        self.network.transcript.message(&self.activity, number, "start", Some(request.len()), "");
        self.cancel_sent = false;
        self.stop.call_starts(Instant::now());
        while !self.is_over() {
            match self.turn()? {
                Some(Notice::Last) => return Ok(End::Answered(Answer::Reply(self.client.message()))),
                Some(Notice::Fault(status)) => return Ok(End::Answered(Answer::Fault(status))),
                Some(Notice::Reject(status)) => return Ok(End::Failed(format!("rejected with {status:#010x}"))),
                Some(Notice::Cause(cause)) => {
                    return Ok(End::Failed(format!("{cause} ({}); it may have been executed", self.peer)));
                }
                Some(Notice::Count(_) | Notice::Dispatch | Notice::Cancel | Notice::Other { .. }) | None => {}
            }
        }
        Ok(End::Failed(String::from("given up at the limit of --seconds; it may have been executed")))
    }

    /// Looks for a stop, and does one thing: sends a fragment, hands in a timer that ran out, or waits for a datagram.
    fn turn(&mut self) -> Result<Option<Notice>, Failure> {
        self.look_for_stop()?;
        if self.client.state() == ClientState::SendFrags {
            return self.transmit();
        }
        let now = Instant::now();
        if let Some(ticket) = self.wait.run_out(now) {
            return self.timer(ClientTimer::Wait, "WAIT", ticket);
        }
        if let Some(ticket) = self.ack.run_out(now) {
            return self.timer(ClientTimer::Ack, "ACK", ticket);
        }
        if let Some(ticket) = self.cancel.run_out(now) {
            return self.timer(ClientTimer::Cancel, "CANCEL", ticket);
        }
        self.receive(now)
    }

    /// Where stop was pressed: cancels the call that is out, and says what came of that.
    fn look_for_stop(&mut self) -> Result<(), Failure> {
        if !self.stop.is_pressed(Instant::now()) {
            return Ok(());
        }
        let number = self.client.number();
        let is_out = self.is_out();
        let outcome = self.client.cancel();
        let told = match outcome.refusal() {
            None => format!("call {number}: stop pressed, the controller is asked to end it"),
            Some(refusal) if is_out => format!("call {number}: stop pressed, no cancel sent: refused {refusal}"),
            Some(refusal) => format!("stop pressed, but no call is out: refused {refusal}"),
        };
        say(&told);
        self.cancel_sent |= outcome.refusal().is_none();
        self.network.send(&outcome, self.peer)?;
        self.follow();
        Ok(())
    }

    fn transmit(&mut self) -> Result<Option<Notice>, Failure> {
        let outcome = self.client.transmit();
        if let Some(refusal) = outcome.refusal() {
            return Err(Failure::Failed(format!("the request cannot be sent: refused {refusal}")));
        }
        let notice = outcome.notice();
        self.network.send(&outcome, self.peer)?;
        self.follow();
        Ok(notice)
    }

    fn timer(&mut self, kind: ClientTimer, name: &str, ticket: u64) -> Result<Option<Notice>, Failure> {
        let number = self.client.number();
        let outcome = self.client.timer(kind, ticket);
        self.network.transcript.timer(&self.activity, number, name, ticket, &outcome);
        let notice = outcome.notice();
        self.network.send(&outcome, self.peer)?;
        self.follow();
        Ok(notice)
    }

    fn receive(&mut self, now: Instant) -> Result<Option<Notice>, Failure> {
        let timers = [self.wait.until(), self.ack.until(), self.cancel.until(), self.end];
        let until = timers.into_iter().flatten().fold(self.stop.until(now), Instant::min);
        let mut buffer = [0; RECEIVE_SIZE];
        let Some((length, _)) = self.network.receive(&mut buffer, until)? else { return Ok(None) };
        let outcome = self.client.arrive(&buffer[..length]);
        self.network.transcript.received(&buffer[..length], &outcome);
        let notice = outcome.notice();
        self.network.send(&outcome, self.peer)?;
        self.follow();
        Ok(notice)
    }

    /// Lets the timers follow the tickets that are armed.
    fn follow(&mut self) {
        let now = Instant::now();
        self.wait.follow(self.client.armed(ClientTimer::Wait), now);
        self.ack.follow(self.client.armed(ClientTimer::Ack), now);
        self.cancel.follow(self.client.armed(ClientTimer::Cancel), now);
    }

    /// Sends the last ack and what is held back.
    pub fn settle(&mut self) -> Result<(), Failure> {
        while !self.is_over() && (self.client.state() == ClientState::AckPending || self.network.holds()) {
            self.turn()?;
        }
        Ok(())
    }

    /// Whether a call is out, so that it can be cancelled.
    fn is_out(&self) -> bool {
        matches!(self.client.state(), ClientState::SendFrags | ClientState::Dispatched | ClientState::ReceiveFrags)
    }

    /// Whether a cancel was sent for the last call.
    pub fn is_cancel_sent(&self) -> bool {
        self.cancel_sent
    }

    /// Whether the time is over that the program may run.
    pub fn is_over(&self) -> bool {
        self.end.is_some_and(|end| end <= Instant::now())
    }
}
