//! A whole small console over UDP, to copy: `console_loop PORT TEXT...` calls the controller at 127.0.0.1:PORT,
//! operation 0, once for each TEXT, and prints the replies. It cancels a call that takes longer than two seconds.
//! docs/USING.md explains it.
use morphelai::programs::operations::{ECHO, INTERFACE, VERSION};
use morphelai::{Call, Client, ClientState, ClientTimer, Notice, Outcome, PDU_SIZE};
use std::net::{Ipv4Addr, UdpSocket};
use std::time::{Duration, Instant};
use std::{env, error::Error, fs::File, io, io::Read, io::Write, num::NonZeroU16, process::ExitCode};

const TIMERS: [(ClientTimer, Duration); 3] = [
    (ClientTimer::Wait, Duration::from_millis(200)),
    (ClientTimer::Ack, Duration::from_millis(50)),
    (ClientTimer::Cancel, Duration::from_millis(1000)),
];
/// When a call is cancelled.
const LONGEST_CALL: Duration = Duration::from_millis(2000);

struct Console {
    socket: UdpSocket,
    client: Client,
    /// Our own timers: the ticket that each was started with, and when it runs out.
    started: [Option<(u64, Instant)>; 3],
}

impl Console {
    /// A console of a new activity: a random UUID, which nobody has used before.
    fn new(port: NonZeroU16) -> Result<Console, Box<dyn Error>> {
        let mut activity = [0; 16];
        File::open("/dev/urandom")?.read_exact(&mut activity)?;
        let client = Client::new(&activity, 0).map_err(|refusal| refusal.to_string())?;
        let socket = UdpSocket::bind((Ipv4Addr::LOCALHOST, 0))?;
        socket.connect((Ipv4Addr::LOCALHOST, port.get()))?;
        socket.set_read_timeout(Some(Duration::from_millis(10)))?;
        Ok(Console { socket, client, started: [None; 3] })
    }

    /// One call: the whole reply, or why there is none. A call that failed may have been executed all the same.
    fn call(&mut self, call: &Call, request: &[u8]) -> Result<Vec<u8>, String> {
        post(&self.socket, self.client.start(call, request))?;
        let mut stop = Some(Instant::now() + LONGEST_CALL);
        loop {
            if stop.take_if(|stop| *stop <= Instant::now()).is_some() {
                post(&self.socket, self.client.cancel())?;
            }
            match self.event()? {
                None | Some(Notice::Count(_)) => {}
                Some(Notice::Last) => return Ok(self.client.message()),
                Some(failure) => return Err(failure.to_string()),
            }
        }
    }

    /// The next event: a fragment to send, a timer that ran out, or a datagram. Then our timers follow the tickets.
    fn event(&mut self) -> Result<Option<Notice>, String> {
        let mut datagram = [0; PDU_SIZE + 1];
        let notice = if self.client.state() == ClientState::SendFrags {
            post(&self.socket, self.client.transmit())?
        } else if let Some((kind, ticket)) = self.ran_out() {
            post(&self.socket, self.client.timer(kind, ticket)).unwrap_or(None)
        } else if let Ok(length) = self.socket.recv(&mut datagram) {
            post(&self.socket, self.client.arrive(&datagram[..length])).unwrap_or(None)
        } else {
            None
        };
        for ((kind, length), started) in TIMERS.into_iter().zip(&mut self.started) {
            let armed = self.client.armed(kind);
            if started.map(|(ticket, _)| ticket) != armed {
                *started = armed.map(|ticket| (ticket, Instant::now() + length));
            }
        }
        Ok(notice)
    }

    /// A timer of ours that ran out, with the ticket that it was started with.
    fn ran_out(&mut self) -> Option<(ClientTimer, u64)> {
        let over = |started: &Option<(u64, Instant)>| started.is_some_and(|(_, due)| due <= Instant::now());
        let place = self.started.iter().position(over)?;
        self.started[place].take().map(|(ticket, _)| (TIMERS[place].0, ticket))
    }
}

/// Sends the PDU of an event (one that the system does not take counts as lost), and gives the notice or the refusal.
fn post(socket: &UdpSocket, outcome: Outcome) -> Result<Option<Notice>, String> {
    let _ = outcome.pdu().map(|pdu| socket.send(pdu));
    outcome.refusal().map_or(Ok(outcome.notice()), |refusal| Err(format!("refused: {refusal}")))
}

fn run(port: NonZeroU16, texts: &[String]) -> Result<(), Box<dyn Error>> {
    let mut console = Console::new(port)?;
    let call = Call { idempotent: false, object: [0; 16], interface: INTERFACE, version: VERSION, operation: ECHO };
    for text in texts {
        writeln!(io::stdout(), "{}", String::from_utf8_lossy(&console.call(&call, text.as_bytes())?))?;
    }
    while console.client.state() == ClientState::AckPending {
        console.event()?;
    }
    Ok(())
}

fn main() -> ExitCode {
    let words: Vec<String> = env::args_os().skip(1).map(|word| word.to_string_lossy().into_owned()).collect();
    let Some(port) = words.first().and_then(|word| word.parse().ok()).filter(|_| words.len() > 1) else {
        let _ = writeln!(io::stderr(), "usage: console_loop PORT TEXT...");
        return ExitCode::from(2);
    };
    let Err(error) = run(port, &words[1..]) else { return ExitCode::SUCCESS };
    let _ = writeln!(io::stderr(), "console_loop: {error}");
    ExitCode::FAILURE
}
