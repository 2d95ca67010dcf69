//! A controller: serves up to 1,024 activities on one UDP socket, and counts by itself how often it executed each
//! call.

mod service;

use morphelai::header::IDEMPOTENT;
use morphelai::programs::network::{Network, LOOK, RECEIVE_SIZE};
use morphelai::programs::options::Arguments;
use morphelai::programs::tally::Tally;
use morphelai::programs::transcript::Transcript;
use morphelai::programs::{conclude, say, Failure};
use morphelai::{Header, Notice, Outcome, PduType};
use service::Service;
use std::collections::HashMap;
use std::net::{Ipv4Addr, SocketAddrV4};
use std::process::ExitCode;
use std::time::{Duration, Instant, SystemTime, UNIX_EPOCH};

const USAGE: &str = "controller [--listen ADDRESS:PORT] [--resend MS] [--work MS] [--ignore-cancels] [--calls N] \
[--seconds N] [--idle SECONDS] [--loss %] [--delay %] [--repeat %] [--seed N] [--trace] [--pcap FILE]";
const VALUED: [&str; 4] = ["--listen", "--resend", "--work", "--idle"];
/// How long nothing must have come before --calls ends the program: a console may still ask for a lost reply.
const QUIET: Duration = Duration::from_secs(1);
/// The most activities that have a record; more are not taken, so that memory stays bounded.
const MOST_ACTIVITIES: usize = 1024;

struct Controller {
    network: Network,
    services: HashMap<[u8; 16], Service>,
    tally: Tally,
    boot: u32,
    resend: Duration,
    /// How long each operation takes.
    work: Option<Duration>,
    ignores_cancels: bool,
    /// How many calls were ended because of a cancel.
    cancelled: u64,
    limits: Limits,
}

/// When to end.
struct Limits {
    end: Option<Instant>,
    idle: Option<Duration>,
    calls: Option<u64>,
    last: Instant,
}

fn main() -> ExitCode {
    conclude("controller", USAGE, run())
}

fn run() -> Result<bool, Failure> {
    let arguments = Arguments::parse(std::env::args_os().skip(1).collect(), &VALUED, &["--ignore-cancels"])?;
    if arguments.has("--help") {
        say(&format!("usage: {USAGE}"));
        return Ok(true);
    }
    let mut controller = Controller::new(&arguments)?;
    let served = controller.serve();
    // Whatever ended it, the counts are told.
    if controller.cancelled > 0 {
        say(&format!("{} of the executions ended by a cancel, without effect", controller.cancelled));
    }
    let counted = summary(&controller.tally);
    served.and(counted)
}

/// Prints the controller's own count. A call not idempotent that was executed twice is a failure.
fn summary(tally: &Tally) -> Result<bool, Failure> {
    let (calls, executions, twice) = (tally.calls(), tally.executions(), tally.twice());
    say(&format!("{calls} calls executed, {executions} executions, {twice} not idempotent executed twice"));
    match twice {
        0 => Ok(true),
        _ => Err(Failure::Failed(format!("warning: {twice} calls not idempotent were executed more than once"))),
    }
}

impl Controller {
    fn new(arguments: &Arguments) -> Result<Controller, Failure> {
        let second = Duration::from_secs(1);
        let at = arguments.address("--listen")?.unwrap_or(SocketAddrV4::new(Ipv4Addr::LOCALHOST, 0));
        let millisecond = Duration::from_millis(1);
        let resend = arguments.span("--resend", millisecond)?.unwrap_or(Duration::from_millis(200));
        let work = arguments.span("--work", millisecond)?;
        let faults = arguments.faults()?;
        let limits = Limits {
            end: arguments.span("--seconds", second)?.map(|end| Instant::now() + end),
            idle: arguments.span("--idle", second)?,
            calls: arguments.number("--calls", 1..=u64::MAX)?,
            last: Instant::now(),
        };
        let socket = Network::listen(at)?;
        let mut network = Network::new(socket, faults, Transcript::new("controller", arguments.has("--trace")))?;
        network.capture(arguments.value("--pcap"))?;
        say(&format!("listening on {}", network.local()));
        network.transcript.title();
        Ok(Controller {
            network,
            services: HashMap::new(),
            tally: Tally::default(),
            boot: SystemTime::now().duration_since(UNIX_EPOCH).map_or(0, |since| since.as_secs() as u32),
            resend,
            work,
            ignores_cancels: arguments.has("--ignore-cancels"),
            cancelled: 0,
            limits,
        })
    }

    fn serve(&mut self) -> Result<(), Failure> {
        while !self.is_over() {
            for service in self.services.values_mut() {
                service.look(&mut self.network)?;
            }
            self.receive()?;
        }
        Ok(())
    }

    fn is_over(&self) -> bool {
        let now = Instant::now();
        let Limits { end, idle, calls, last } = self.limits;
        let quiet = |span| last + span <= now;
        let done = calls.is_some_and(|calls| self.tally.calls() >= calls);
        end.is_some_and(|end| end <= now) || idle.is_some_and(quiet) || done && quiet(QUIET) && self.is_at_rest()
    }

    /// Nothing is held back, no call is running, and no reply waits for its ack.
    fn is_at_rest(&self) -> bool {
        !self.network.holds() && self.services.values().all(|service| service.until().is_none())
    }

    /// Waits for a datagram, until the first timer runs out at the latest.
    fn receive(&mut self) -> Result<(), Failure> {
        let timers = self.services.values().filter_map(Service::until);
        let until = timers.fold(Instant::now() + LOOK, Instant::min);
        let mut buffer = [0; RECEIVE_SIZE];
        let Some((length, from)) = self.network.receive(&mut buffer, until)? else { return Ok(()) };
        self.limits.last = Instant::now();
        let datagram = &buffer[..length];
        match Header::read(datagram) {
            Ok(header) => self.arrive(&header, datagram, from),
            Err(refusal) => {
                self.network.transcript.received(datagram, &Outcome::Refused(refusal));
                Ok(())
            }
        }
    }

    /// Hands a datagram to the server of its activity. Executes the call where it is dispatched, and ends it where it
    /// is cancelled.
    fn arrive(&mut self, header: &Header, datagram: &[u8], from: SocketAddrV4) -> Result<(), Failure> {
        self.admit(header, from)?;
        let activity = header.activity();
        let Some(service) = self.services.get_mut(&activity).filter(|service| service.peer() == from) else {
            self.network.transcript.pdu("received", datagram, "dropped: not of an activity that is served");
            return Ok(());
        };
        match service.arrive(datagram, &mut self.network)? {
            Some(Notice::Dispatch) => {
                let times = self.tally.add(activity, service.number(), header.has(IDEMPOTENT));
                service.begin(times, self.work, &mut self.network)
            }
            Some(Notice::Cancel) if !self.ignores_cancels => {
                self.cancelled += 1;
                service.cancel(&mut self.network)
            }
            _ => Ok(()),
        }
    }

    /// Makes a server for an activity that is first seen, by a request or a ping.
    fn admit(&mut self, header: &Header, from: SocketAddrV4) -> Result<(), Failure> {
        let activity = header.activity();
        let asks = matches!(header.pdu_type(), PduType::Request | PduType::Ping);
        if !asks || self.services.contains_key(&activity) || self.services.len() >= MOST_ACTIVITIES {
            return Ok(());
        }
        let service = Service::new(activity, self.boot, from, self.resend)
            .map_err(|refusal| Failure::Failed(format!("no server for an activity: refused {refusal}")))?;
        self.services.insert(activity, service);
        Ok(())
    }
}
