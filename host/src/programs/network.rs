//! A UDP socket that can be made bad: what is sent may be lost, held back or repeated.

use super::capture::Capture;
use super::random::Random;
use super::transcript::Transcript;
use super::Failure;
use crate::Outcome;
use std::io::{Error, ErrorKind};
use std::net::{Ipv4Addr, SocketAddr, SocketAddrV4, UdpSocket};
use std::time::{Duration, Instant};

/// The longest that a PDU is held back, in milliseconds.
const LONGEST_DELAY: u64 = 30;
/// More than the longest PDU, so that a longer datagram does not look whole.
pub const RECEIVE_SIZE: usize = 2048;
/// Linux's number (EMSGSIZE) for a PDU longer than its way takes in one piece; the system cuts up those after it.
const MESSAGE_TOO_LONG: i32 = 90;
/// How often a program looks at the clock where no timer runs.
pub const LOOK: Duration = Duration::from_millis(100);

/// In how many of a hundred cases a PDU that is sent is lost, held back, or sent twice.
#[derive(Clone, Copy, Debug, Default, PartialEq, Eq)]
pub struct Faults {
    /// Lost.
    pub loss: u64,
    /// Held back for some milliseconds, so that order changes.
    pub delay: u64,
    /// Sent twice.
    pub repeat: u64,
    /// The seed of the chances.
    pub seed: u64,
}

struct Held {
    due: Instant,
    to: SocketAddrV4,
    pdu: Vec<u8>,
}

/// A socket with faults, which writes transcript and capture of what passes.
pub struct Network {
    socket: UdpSocket,
    local: SocketAddrV4,
    faults: Faults,
    random: Random,
    held: Vec<Held>,
    capture: Option<Capture>,
    /// What is printed of what happens.
    pub transcript: Transcript,
}

impl Network {
    /// A socket that listens at an address; port 0 takes any.
    pub fn listen(at: SocketAddrV4) -> Result<UdpSocket, Failure> {
        UdpSocket::bind(at).map_err(|error| Failure::system(&format!("cannot listen on {at}"), &error))
    }

    /// A socket for one peer.
    pub fn connect(to: SocketAddrV4) -> Result<UdpSocket, Failure> {
        let failed = |error: Error| Failure::system(&format!("cannot send to {to}"), &error);
        let socket = UdpSocket::bind((Ipv4Addr::UNSPECIFIED, 0)).map_err(failed)?;
        socket.connect(to).map_err(failed)?;
        Ok(socket)
    }

    /// A network over a socket.
    pub fn new(socket: UdpSocket, faults: Faults, transcript: Transcript) -> Result<Network, Failure> {
        let local = match socket.local_addr() {
            Ok(SocketAddr::V4(local)) => local,
            Ok(other) => return Err(Failure::Failed(format!("not an IPv4 address: {other}"))),
            Err(error) => return Err(Failure::system("cannot tell the socket's address", &error)),
        };
        let random = Random::new(faults.seed);
        Ok(Network { socket, local, faults, random, held: Vec::new(), capture: None, transcript })
    }

    /// Writes what passes to this capture file too.
    pub fn capture(&mut self, file: Option<&str>) -> Result<(), Failure> {
        self.capture = file.map(Capture::create).transpose()?;
        Ok(())
    }

    /// The address of this side.
    pub fn local(&self) -> SocketAddrV4 {
        self.local
    }

    /// Sends the PDU of an outcome, if it has one, as well as the faults let it.
    pub fn send(&mut self, outcome: &Outcome<'_>, to: SocketAddrV4) -> Result<(), Failure> {
        let Some(pdu) = outcome.pdu() else { return Ok(()) };
        if self.random.happens(self.faults.loss) {
            self.transcript.pdu("lost", pdu, "");
            return Ok(());
        }
        self.pass(pdu, to, "sent")?;
        if self.random.happens(self.faults.repeat) {
            self.pass(pdu, to, "repeated")?;
        }
        Ok(())
    }

    /// Sends it now, or holds it back.
    fn pass(&mut self, pdu: &[u8], to: SocketAddrV4, event: &str) -> Result<(), Failure> {
        if !self.random.happens(self.faults.delay) {
            return self.put_out(pdu, to, event);
        }
        let delay = 1 + self.random.below(LONGEST_DELAY);
        self.transcript.pdu("delayed", pdu, &format!("by {delay} ms"));
        self.held.push(Held { due: Instant::now() + Duration::from_millis(delay), to, pdu: pdu.to_vec() });
        Ok(())
    }

    fn put_out(&mut self, pdu: &[u8], to: SocketAddrV4, event: &str) -> Result<(), Failure> {
        let sent = match self.socket.send_to(pdu, to) {
            Err(error) if is_of_an_earlier_pdu(&error) => self.socket.send_to(pdu, to),
            sent => sent,
        };
        if let Err(error) = sent {
            // A PDU that cannot be sent is a lost one; the timers take care of it.
            self.transcript.pdu("lost", pdu, &error.to_string());
            return Ok(());
        }
        self.transcript.pdu(event, pdu, "");
        match &mut self.capture {
            Some(capture) => capture.add(self.local, to, pdu),
            None => Ok(()),
        }
    }

    /// Sends what was held back long enough.
    fn release(&mut self) -> Result<(), Failure> {
        let now = Instant::now();
        while let Some(place) = self.held.iter().position(|held| held.due <= now) {
            let held = self.held.remove(place);
            self.put_out(&held.pdu, held.to, "sent")?;
        }
        Ok(())
    }

    /// Waits for a datagram, until then at the latest, and sends meanwhile what was held back. Gives its length and
    /// where it came from. It may come back with nothing before the time.
    pub fn receive(
        &mut self,
        buffer: &mut [u8; RECEIVE_SIZE],
        until: Instant,
    ) -> Result<Option<(usize, SocketAddrV4)>, Failure> {
        self.release()?;
        let until = self.held.iter().map(|held| held.due).fold(until, Instant::min);
        let wait = until.saturating_duration_since(Instant::now()).max(Duration::from_micros(1));
        let failed = |error: Error| Failure::system("cannot receive", &error);
        self.socket.set_read_timeout(Some(wait)).map_err(failed)?;
        let (length, from) = match self.socket.recv_from(buffer) {
            Ok((length, SocketAddr::V4(from))) => (length, from),
            Ok(_) => return Ok(None),
            Err(error) => return is_nothing(&error).then_some(None).ok_or_else(|| failed(error)),
        };
        if let Some(capture) = &mut self.capture {
            capture.add(from, self.local, &buffer[..length])?;
        }
        Ok(Some((length, from)))
    }

    /// Whether something is held back.
    pub fn holds(&self) -> bool {
        !self.held.is_empty()
    }
}

/// Errors that only say that nothing has come: the time is over, or what we sent did not get there.
fn is_nothing(error: &Error) -> bool {
    use ErrorKind::{Interrupted, TimedOut, WouldBlock};
    matches!(error.kind(), WouldBlock | TimedOut | Interrupted) || is_of_an_earlier_pdu(error)
}

/// Errors that tell what an earlier PDU met on its way. The next send or receive gets them, and is then not done.
fn is_of_an_earlier_pdu(error: &Error) -> bool {
    use ErrorKind::{ConnectionRefused, HostUnreachable, NetworkUnreachable};
    matches!(error.kind(), ConnectionRefused | HostUnreachable | NetworkUnreachable)
        || error.raw_os_error() == Some(MESSAGE_TOO_LONG)
}
