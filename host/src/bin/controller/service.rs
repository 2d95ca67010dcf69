//! The server of one activity, with what the host owns for it.

use morphelai::programs::network::Network;
use morphelai::programs::operations::{execute, Answer, CANCELLED, INTERFACE, UNKNOWN_INTERFACE, VERSION};
use morphelai::programs::timer::Timer;
use morphelai::programs::Failure;
use morphelai::{Notice, Refusal, Server, ServerState};
use std::net::SocketAddrV4;
use std::time::{Duration, Instant};

pub struct Service {
    server: Server,
    activity: [u8; 16],
    peer: SocketAddrV4,
    resend: Timer,
    work: Option<Work>,
}

/// The work of the call that is running.
struct Work {
    /// When it is done.
    until: Instant,
    /// How often the call was executed, this time included.
    times: u32,
}

impl Service {
    /// A fresh server for an activity first seen, whose console is at that address.
    pub fn new(activity: [u8; 16], boot: u32, peer: SocketAddrV4, resend: Duration) -> Result<Service, Refusal> {
        let server = Server::new(&activity, boot, 0)?;
        Ok(Service { server, activity, peer, resend: Timer::new(resend), work: None })
    }

    /// Where its console is.
    pub fn peer(&self) -> SocketAddrV4 {
        self.peer
    }

    /// The number of its call.
    pub fn number(&self) -> u32 {
        self.server.number()
    }

    /// When its timer runs out or its work is done, whichever comes first, if there is one.
    pub fn until(&self) -> Option<Instant> {
        let work = self.work.as_ref().map(|work| work.until);
        self.resend.until().into_iter().chain(work).min()
    }

    /// Takes a datagram. Gives what the stub is told: that the call is to be executed now, or is to end.
    pub fn arrive(&mut self, datagram: &[u8], network: &mut Network) -> Result<Option<Notice>, Failure> {
        let outcome = self.server.arrive(datagram);
        network.transcript.received(datagram, &outcome);
        let notice = outcome.notice();
        network.send(&outcome, self.peer)?;
        self.go_on(network)?;
        Ok(notice)
    }

    /// Executes the call that was dispatched, for the so many-th time: at once, or when its work is done.
    pub fn begin(&mut self, times: u32, work: Option<Duration>, network: &mut Network) -> Result<(), Failure> {
        match work {
            None => self.execute(times, network),
            Some(span) => {
                self.work = Some(Work { until: Instant::now() + span, times });
                Ok(())
            }
        }
    }

    /// Ends the call that is running because of a cancel. Its work is dropped before it had an effect.
    pub fn cancel(&mut self, network: &mut Network) -> Result<(), Failure> {
        self.work = None;
        self.answer(&Answer::Fault(CANCELLED), network)
    }

    /// Executes the call that is running, and answers it.
    fn execute(&mut self, times: u32, network: &mut Network) -> Result<(), Failure> {
        let known = self.server.interface() == INTERFACE && self.server.version() == VERSION;
        let answer = match known {
            true => execute(self.server.operation(), &self.server.message(), times),
            false => Answer::Fault(UNKNOWN_INTERFACE),
        };
        self.answer(&answer, network)
    }

    fn answer(&mut self, answer: &Answer, network: &mut Network) -> Result<(), Failure> {
        let number = self.server.number();
        let outcome = match answer {
            Answer::Reply(reply) => {
                network.transcript.message(&self.activity, number, "reply", Some(reply.len()), "");
                self.server.reply(reply)
            }
            Answer::Fault(status) => {
                network.transcript.message(&self.activity, number, "fault", None, &format!("{status:#010x}"));
                self.server.fault(*status)
            }
        };
        if let Some(refusal) = outcome.refusal() {
            return Err(Failure::Failed(format!("a call cannot be answered: refused {refusal}")));
        }
        network.send(&outcome, self.peer)?;
        self.go_on(network)
    }

    /// Executes the call whose work is done, and hands in the timer if it has run out.
    pub fn look(&mut self, network: &mut Network) -> Result<(), Failure> {
        let now = Instant::now();
        if let Some(work) = self.work.take_if(|work| work.until <= now) {
            self.execute(work.times, network)?;
        }
        let Some(ticket) = self.resend.run_out(now) else { return Ok(()) };
        let number = self.server.number();
        let outcome = self.server.timer(ticket);
        network.transcript.timer(&self.activity, number, "RESEND", ticket, &outcome);
        network.send(&outcome, self.peer)?;
        self.go_on(network)
    }

    /// After each event: sends what there is to send of the reply, and lets the timer follow the ticket armed.
    fn go_on(&mut self, network: &mut Network) -> Result<(), Failure> {
        while self.server.state() == ServerState::Replying {
            let outcome = self.server.transmit();
            if let Some(refusal) = outcome.refusal() {
                return Err(Failure::Failed(format!("a reply cannot be sent: refused {refusal}")));
            }
            network.send(&outcome, self.peer)?;
        }
        self.resend.follow(self.server.armed(), Instant::now());
        Ok(())
    }
}
