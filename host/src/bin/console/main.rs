//! A console: calls a controller over UDP, several times, and compares each reply with what it must be.

mod caller;
mod stop;

use caller::{Caller, End, Spans};
use morphelai::programs::network::{Faults, Network};
use morphelai::programs::operations::{is_right, Answer, CANCELLED, FILL, INTERFACE, VERSION};
use morphelai::programs::options::Arguments;
use morphelai::programs::random::Random;
use morphelai::programs::transcript::Transcript;
use morphelai::programs::{conclude, say, Failure};
use morphelai::{Call, MESSAGE_SIZE};
use std::net::SocketAddrV4;
use std::process::ExitCode;
use std::time::{Duration, Instant};

const USAGE: &str = "console --to ADDRESS:PORT [--calls N] [--size BYTES] [--reply BYTES] [--operation 0..3] \
[--idempotent] [--wait MS] [--ack MS] [--cancel MS] [--stop MS] [--seconds N] [--loss %] [--delay %] [--repeat %] \
[--seed N] [--trace] [--pcap FILE]; the line stop on standard input cancels the call that is out";
const VALUED: [&str; 8] = ["--to", "--size", "--reply", "--operation", "--wait", "--ack", "--cancel", "--stop"];

/// What the arguments ask for.
struct Plan {
    to: SocketAddrV4,
    calls: u64,
    size: usize,
    reply: Option<u32>,
    call: Call,
    spans: Spans,
    faults: Faults,
}

fn main() -> ExitCode {
    conclude("console", USAGE, run())
}

fn run() -> Result<bool, Failure> {
    let arguments = Arguments::parse(std::env::args_os().skip(1).collect(), &VALUED, &["--idempotent"])?;
    if arguments.has("--help") {
        say(&format!("usage: {USAGE}"));
        return Ok(true);
    }
    let plan = Plan::of(&arguments)?;
    let transcript = Transcript::new("console", arguments.has("--trace"));
    let mut network = Network::new(Network::connect(plan.to)?, plan.faults, transcript)?;
    network.capture(arguments.value("--pcap"))?;
    network.transcript.title();
    let mut caller = Caller::new(plan.to, network, &plan.spans)?;
    let (mut started, mut good) = (0, 0);
    while started < plan.calls && !caller.is_over() {
        good += u64::from(plan.report(&mut caller, started)?);
        started += 1;
    }
    caller.settle()?;
    if started < plan.calls {
        say(&format!("{} calls not made: the limit of --seconds", plan.calls - started));
    }
    say(&format!("{started} calls, {good} good, {} failed", started - good));
    Ok(good == plan.calls)
}

impl Plan {
    fn of(arguments: &Arguments) -> Result<Plan, Failure> {
        let to = arguments.address("--to")?.filter(|to| to.port() > 0);
        let missing = || Failure::Usage(String::from("--to is missing, or its port is 0"));
        let milliseconds =
            |name, usual| Ok(arguments.span(name, Duration::from_millis(1))?.unwrap_or(Duration::from_millis(usual)));
        let reply = arguments.number("--reply", 0..=MESSAGE_SIZE as u64)?;
        let operation = arguments.number("--operation", 0..=3)?;
        let size = arguments.number("--size", 0..=MESSAGE_SIZE as u64)?.unwrap_or(1000);
        if reply.is_some() && (operation.is_some() || size < 4) {
            return Err(Failure::Usage(String::from("--reply has its own operation and a --size of 4 or more")));
        }
        Ok(Plan {
            to: to.ok_or_else(missing)?,
            calls: arguments.number("--calls", 1..=1_000_000)?.unwrap_or(3),
            size: size as usize,
            reply: reply.map(|reply| reply as u32),
            call: Call {
                idempotent: arguments.has("--idempotent"),
                object: [0; 16],
                interface: INTERFACE,
                version: VERSION,
                operation: reply.map_or(operation.unwrap_or(0) as u16, |_| FILL),
            },
            spans: Spans {
                wait: milliseconds("--wait", 100)?,
                ack: milliseconds("--ack", 20)?,
                cancel: milliseconds("--cancel", 1000)?,
                stop: arguments.span("--stop", Duration::from_millis(1))?,
                seconds: arguments.span("--seconds", Duration::from_secs(1))?,
            },
            faults: arguments.faults()?,
        })
    }

    /// The request of a call: random bytes of the seed; of a reply's own length its first four say which.
    fn request(&self, number: u64) -> Vec<u8> {
        let mut request = Random::new(self.faults.seed ^ (number << 32)).bytes(self.size);
        if let (Some(reply), Some(first)) = (self.reply, request.first_chunk_mut()) {
            *first = reply.to_le_bytes();
        }
        request
    }

    /// Makes one call and prints how it went. Gives whether it was good.
    fn report(&self, caller: &mut Caller, number: u64) -> Result<bool, Failure> {
        let request = self.request(number);
        let began = Instant::now();
        let end = caller.call(&self.call, &request).map_err(|failure| during(number, failure))?;
        let time = began.elapsed().as_secs_f64() * 1000.0;
        let (right, what) = match &end {
            End::Answered(answer) => self.judge(&request, answer, caller.is_cancel_sent()),
            End::Failed(why) => (false, why.clone()),
        };
        say(&format!("call {number}: {}, {what}, {time:.1} ms", if right { "good" } else { "failed" }));
        Ok(right)
    }

    /// Whether an answer is right, and a few words on it; of a call for which a cancel was sent, what came of that.
    fn judge(&self, request: &[u8], answer: &Answer, cancel_sent: bool) -> (bool, String) {
        let right = is_right(self.call.operation, self.call.idempotent, request, answer);
        let what = match answer {
            Answer::Reply(reply) if right => format!("{} back", reply.len()),
            Answer::Reply(reply) => format!("a wrong reply of {} back", reply.len()),
            Answer::Fault(status) => format!("fault {status:#010x} back"),
        };
        let came_of_cancel = match answer {
            _ if !cancel_sent => "",
            Answer::Fault(CANCELLED) => ", cancelled: the controller ended it",
            Answer::Reply(_) | Answer::Fault(_) => ", completed although stop was pressed",
        };
        (right, format!("{} bytes, {what}{came_of_cancel}", request.len()))
    }
}

/// What ended the program while a call was out: the call is told too.
fn during(number: u64, failure: Failure) -> Failure {
    match failure {
        Failure::Failed(text) => Failure::Failed(format!("call {number}: failed, {text}; it may have been executed")),
        usage => usage,
    }
}
