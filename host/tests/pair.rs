//! Whole calls of a client and a server in memory.

use morphelai::programs::random::Random;
use morphelai::{Call, Client, ClientState, ClientTimer, Header, Notice, Outcome, Server, ServerState};
use morphelai::{MESSAGE_SIZE, PDU_SIZE};

const ACTIVITY: [u8; 16] = *b"an activity here";
/// The status of a call that the stub ended because of a cancel.
const CANCELLED: u32 = 0x1c00_000d;

fn call(idempotent: bool) -> Call {
    Call { idempotent, object: [3; 16], interface: [5; 16], version: 70_000, operation: 258 }
}

fn pair() -> (Client, Server) {
    (Client::new(&ACTIVITY, 0).expect("a client"), Server::new(&ACTIVITY, 9, 0).expect("a server"))
}

/// The PDU of an outcome, as a copy.
fn copy(outcome: Outcome<'_>) -> Vec<Vec<u8>> {
    outcome.pdu().map(<[u8]>::to_vec).into_iter().collect()
}

#[test]
fn a_call_of_every_size_comes_there_and_back() {
    let (mut client, mut server) = pair();
    for (number, size) in [0, 1, 1392, 1393, 2784, MESSAGE_SIZE].into_iter().enumerate() {
        for idempotent in [false, true] {
            let request = Random::new(size as u64).bytes(size);
            assert_eq!(client.start(&call(idempotent), &request).refusal(), None);
            let mut dispatches = 0;
            while client.state() == ClientState::SendFrags {
                let pdu = copy(client.transmit()).remove(0);
                dispatches += u32::from(server.arrive(&pdu).notice() == Some(Notice::Dispatch));
            }
            assert_eq!((dispatches, server.state()), (1, ServerState::Running));
            assert_eq!(server.number(), 2 * number as u32 + u32::from(idempotent));
            assert_eq!((server.object(), server.interface()), ([3; 16], [5; 16]));
            assert_eq!((server.version(), server.operation()), (70_000, 258));
            assert!(server.message() == request);
            let reply: Vec<u8> = request.iter().rev().copied().collect();
            assert_eq!(server.reply(&reply).refusal(), None);
            let mut told = None;
            while server.state() == ServerState::Replying {
                let pdu = copy(server.transmit()).remove(0);
                told = client.arrive(&pdu).notice();
            }
            assert_eq!(told, Some(Notice::Last));
            assert!(client.message() == reply);
        }
    }
}

#[test]
fn parts_are_handed_up_as_far_as_they_are_contiguous() {
    let (mut client, mut server) = pair();
    let request: Vec<u8> = (0..3000).map(|at| (at / 7) as u8).collect();
    assert_eq!(client.start(&call(false), &request).refusal(), None);
    let pdus: Vec<Vec<u8>> = (0..3).flat_map(|_| copy(client.transmit())).collect();
    assert_eq!(server.arrive(&pdus[2]).notice(), None);
    assert_eq!(server.message(), []);
    assert_eq!(server.arrive(&pdus[0]).notice(), None);
    assert_eq!(server.message(), request[..1392]);
    assert_eq!((server.part(0).len(), server.part(1).len(), server.part(2).len()), (1392, 0, 0));
    assert_eq!(server.arrive(&pdus[1]).notice(), Some(Notice::Dispatch));
    assert_eq!(server.message(), request);
    assert_eq!(server.part(2), &request[2784..]);
    assert_eq!(server.part(65_535), []);
}

#[test]
fn a_fragment_may_be_empty() {
    let (mut client, mut server) = pair();
    assert_eq!(client.start(&call(false), &[1; 3000]).refusal(), None);
    let pdus: Vec<Vec<u8>> = (0..3).flat_map(|_| copy(client.transmit())).collect();
    let mut told = None;
    for (pdu, body) in pdus.iter().zip([&b"open"[..], b"", b"ed"]) {
        let mut buffer = [0; PDU_SIZE];
        let header = Header::read(pdu).expect("a header");
        let length = header.write(body, &mut buffer).expect("a PDU");
        told = server.arrive(&buffer[..length]).notice();
    }
    assert_eq!((told, server.message()), (Some(Notice::Dispatch), b"opened".to_vec()));
}

#[test]
fn a_fault_comes_back_and_is_kept() {
    let (mut client, mut server) = pair();
    assert_eq!(client.start(&call(false), b"x").refusal(), None);
    let request = copy(client.transmit()).remove(0);
    assert_eq!(server.arrive(&request).notice(), Some(Notice::Dispatch));
    let fault = copy(server.fault(0x1c01_0003)).remove(0);
    assert_eq!(server.state(), ServerState::HeldFault);
    assert_eq!(client.arrive(&fault).notice(), Some(Notice::Fault(0x1c01_0003)));
    assert_eq!(client.state(), ClientState::Fault);
}

/// A network in memory that loses, repeats and mixes up what the two sides send.
struct Storm {
    random: Random,
    /// Whether the client cancels now and then, and the server takes its time.
    cancels: bool,
    to_client: Vec<Vec<u8>>,
    to_server: Vec<Vec<u8>>,
    dispatches: u32,
}

impl Storm {
    fn new(seed: u64, cancels: bool) -> Storm {
        Storm { random: Random::new(seed), cancels, to_client: Vec::new(), to_server: Vec::new(), dispatches: 0 }
    }

    /// Whether the client cancels in this turn.
    fn presses_stop(&mut self, client: &Client) -> bool {
        let out = [ClientState::SendFrags, ClientState::Dispatched, ClientState::ReceiveFrags];
        self.cancels && out.contains(&client.state()) && self.random.below(12) == 0
    }

    /// Whether the server goes on working in this turn.
    fn works_on(&mut self) -> bool {
        self.cancels && self.random.below(8) != 0
    }

    /// A PDU as it passes: lost, once or twice.
    fn pass(&mut self, pdus: Vec<Vec<u8>>) -> Vec<Vec<u8>> {
        let times = [0, 1, 1, 1, 2][self.random.below(5) as usize];
        pdus.iter().flat_map(|pdu| vec![pdu.clone(); times]).collect()
    }

    fn client_turn(&mut self, client: &mut Client) -> Option<Notice> {
        let timers = [ClientTimer::Cancel, ClientTimer::Wait, ClientTimer::Ack];
        let armed = timers.into_iter().find_map(|kind| client.armed(kind).map(|ticket| (kind, ticket)));
        let outcome = if self.presses_stop(client) {
            client.cancel()
        } else if client.state() == ClientState::SendFrags {
            client.transmit()
        } else if !self.to_client.is_empty() {
            let place = self.random.below(self.to_client.len() as u64) as usize;
            client.arrive(&self.to_client.swap_remove(place))
        } else if let (Some((kind, ticket)), true) = (armed, self.to_server.is_empty()) {
            client.timer(kind, ticket)
        } else {
            return None;
        };
        let notice = outcome.notice();
        let pdus = self.pass(copy(outcome));
        self.to_server.extend(pdus);
        notice
    }

    fn server_turn(&mut self, server: &mut Server) {
        let outcome = if server.state() == ServerState::Running && !self.works_on() {
            let reply = server.message();
            server.reply(&reply)
        } else if server.state() == ServerState::Replying {
            server.transmit()
        } else if !self.to_server.is_empty() {
            let place = self.random.below(self.to_server.len() as u64) as usize;
            server.arrive(&self.to_server.swap_remove(place))
        } else {
            return;
        };
        let notice = outcome.notice();
        self.dispatches += u32::from(notice == Some(Notice::Dispatch));
        let pdus = self.pass(copy(outcome));
        self.to_client.extend(pdus);
        if notice == Some(Notice::Cancel) {
            let pdus = self.pass(copy(server.fault(CANCELLED)));
            self.to_client.extend(pdus);
        }
    }

    /// One call, not idempotent: the notice that ends it, and how often it was dispatched.
    fn call(&mut self, client: &mut Client, server: &mut Server, request: &[u8]) -> (Option<Notice>, u32) {
        let before = self.dispatches;
        assert_eq!(client.start(&call(false), request).refusal(), None);
        let end = (0..10_000).find_map(|_| {
            self.server_turn(server);
            self.client_turn(client).filter(|notice| !matches!(notice, Notice::Count(_)))
        });
        (end, self.dispatches - before)
    }
}

#[test]
fn over_a_bad_network_every_call_ends_and_is_executed_at_most_once() {
    let (mut good, mut failed) = (0, 0);
    for seed in 0..200 {
        let (mut client, mut server) = pair();
        let mut storm = Storm::new(seed, false);
        for size in [0, 1, 1393, 5000] {
            let request = Random::new(seed + size as u64).bytes(size);
            let (end, dispatches) = storm.call(&mut client, &mut server, &request);
            assert!(dispatches <= 1, "seed {seed}: executed twice");
            match end {
                Some(Notice::Last) => {
                    assert!(client.message() == request, "seed {seed}: another reply");
                    assert_eq!(dispatches, 1, "seed {seed}: a reply without an execution");
                    good += 1;
                }
                Some(Notice::Cause(_)) => failed += 1,
                other => panic!("seed {seed}: {other:?}"),
            }
        }
    }
    assert!(good > 700, "{good} good, {failed} failed");
}

/// The same with cancels: a call that its stub ended was dispatched, and one that completed has its own reply.
#[test]
fn over_a_bad_network_a_cancelled_call_ends_and_is_executed_at_most_once() {
    let (mut replies, mut faults, mut causes) = (0, 0, 0);
    for seed in 0..200 {
        let (mut client, mut server) = pair();
        let mut storm = Storm::new(seed, true);
        for size in [0, 1, 1393, 5000] {
            let request = Random::new(seed + size as u64).bytes(size);
            let (end, dispatches) = storm.call(&mut client, &mut server, &request);
            match end {
                Some(Notice::Last) => {
                    assert!(client.message() == request, "seed {seed}: another reply");
                    assert_eq!(dispatches, 1, "seed {seed}: a reply");
                    replies += 1;
                }
                Some(Notice::Fault(CANCELLED)) => {
                    assert_eq!(dispatches, 1, "seed {seed}: a fault");
                    faults += 1;
                }
                Some(Notice::Cause(_)) => {
                    assert!(dispatches <= 1, "seed {seed}: executed twice");
                    causes += 1;
                }
                other => panic!("seed {seed}: {other:?}"),
            }
        }
    }
    assert!(replies > 100 && faults > 100 && causes > 20, "{replies} replies, {faults} faults, {causes} causes");
}
