//! Facks: which fragments get one, what it tells, and from where a message is sent again.

use morphelai::programs::random::Random;
use morphelai::{
    Call, Client, ClientState, ClientTimer, Header, Notice, Outcome, PduType, Refusal, Server, ServerState,
    FRAGMENT_SIZE, MESSAGE_SIZE,
};

const ACTIVITY: [u8; 16] = [1; 16];
/// The order in which four fragments arrive.
const MIXED: [usize; 4] = [2, 0, 1, 3];
/// What is told of them then: the number of the fack, its mask, and the serial of the fragment's PDU.
const TOLD: [(u16, u32, u16); 4] = [(65_535, 4, 3), (0, 2, 1), (2, 0, 2), (3, 0, 4)];

fn call(idempotent: bool) -> Call {
    Call { idempotent, object: [0; 16], interface: [2; 16], version: 1, operation: 0 }
}

/// A message of so many fragments.
fn message(fragments: usize) -> Vec<u8> {
    Random::new(fragments as u64).bytes(fragments * FRAGMENT_SIZE - 1)
}

fn sent(outcome: Outcome<'_>) -> Vec<u8> {
    outcome.pdu().expect("a PDU").to_vec()
}

/// The fragment numbers of PDUs.
fn fragments(pdus: &[Vec<u8>]) -> Vec<u16> {
    pdus.iter().map(|pdu| Header::read(pdu).expect("a header").fragment()).collect()
}

/// Number, mask and answered serial of the fack that an event sends; none where it sends nothing.
fn fack(outcome: &Outcome<'_>) -> Option<(u16, u32, u16)> {
    let pdu = outcome.pdu()?;
    let header = Header::read(pdu).expect("a header");
    assert_eq!((header.pdu_type(), pdu.len()), (PduType::Fack, 100));
    let mask = u32::from_le_bytes([pdu[96], pdu[97], pdu[98], pdu[99]]);
    Some((header.fragment(), mask, u16::from_le_bytes([pdu[92], pdu[93]])))
}

/// A client that has sent all of its request, with the PDUs, and a fresh server.
fn requested(idempotent: bool, request: &[u8]) -> (Client, Server, Vec<Vec<u8>>) {
    let mut client = Client::new(&ACTIVITY, 0).expect("a client");
    assert_eq!(client.start(&call(idempotent), request).refusal(), None);
    let mut pdus = Vec::new();
    while client.state() == ClientState::SendFrags {
        pdus.push(sent(client.transmit()));
    }
    (client, Server::new(&ACTIVITY, 9, 0).expect("a server"), pdus)
}

/// A client that has sent a short request, and a server that has sent all of its reply, with the PDUs.
fn replied(idempotent: bool, reply: &[u8]) -> (Client, Server, Vec<Vec<u8>>) {
    let (client, mut server, request) = requested(idempotent, b"abc");
    assert_eq!(server.arrive(&request[0]).notice(), Some(Notice::Dispatch));
    assert_eq!(server.reply(reply).refusal(), None);
    let pdus = transmitted(&mut server);
    (client, server, pdus)
}

/// What a server sends of its reply now.
fn transmitted(server: &mut Server) -> Vec<Vec<u8>> {
    let mut pdus = Vec::new();
    while server.state() == ServerState::Replying {
        pdus.push(sent(server.transmit()));
    }
    pdus
}

fn ping(client: &mut Client) -> Vec<u8> {
    let ticket = client.armed(ClientTimer::Wait).expect("WAIT is armed");
    sent(client.timer(ClientTimer::Wait, ticket))
}

#[test]
fn a_message_of_one_fragment_gets_none() {
    for size in [0, 1, FRAGMENT_SIZE] {
        for idempotent in [false, true] {
            let (_, mut server, requests) = requested(idempotent, &vec![7; size]);
            let outcome = server.arrive(&requests[0]);
            assert_eq!(outcome, Outcome::Done { pdu: None, notice: Some(Notice::Dispatch) });
            let (mut client, _, responses) = replied(idempotent, &vec![7; size]);
            let outcome = client.arrive(&responses[0]);
            assert_eq!(outcome, Outcome::Done { pdu: None, notice: Some(Notice::Last) });
        }
    }
}

#[test]
fn each_fragment_of_several_gets_one_which_the_sender_takes() {
    for (size, count) in [(1393, 2), (2784, 2), (2785, 3), (MESSAGE_SIZE, 32)] {
        let (mut client, mut server, requests) = requested(false, &vec![7; size]);
        assert_eq!(requests.len(), count);
        for (number, pdu) in (0..).zip(&requests) {
            let outcome = server.arrive(pdu);
            assert_eq!(fack(&outcome), Some((number, 0, number + 1)));
            assert_eq!(client.arrive(&sent(outcome)), Outcome::Done { pdu: None, notice: None });
        }
        let (mut client, mut server, responses) = replied(false, &vec![7; size]);
        assert_eq!(responses.len(), count);
        for (number, pdu) in (0..).zip(&responses) {
            let outcome = client.arrive(pdu);
            assert_eq!(fack(&outcome), Some((number, 0, number + 1)));
            assert_eq!(server.arrive(&sent(outcome)), Outcome::Done { pdu: None, notice: None });
        }
    }
}

#[test]
fn a_fack_tells_what_the_server_holds_and_a_repeated_fragment_gets_none() {
    let request = message(4);
    let (_, mut server, pdus) = requested(false, &request);
    for (place, told) in MIXED.into_iter().zip(TOLD) {
        let outcome = server.arrive(&pdus[place]);
        assert_eq!(fack(&outcome), Some(told));
        assert_eq!(outcome.notice(), (place == 3).then_some(Notice::Dispatch));
        if place != 3 {
            assert_eq!(server.arrive(&pdus[place]), Outcome::Refused(Refusal::Repeated));
        }
    }
    assert!(server.message() == request);
}

#[test]
fn a_fack_tells_what_the_client_holds_and_a_repeated_fragment_gets_none() {
    let reply = message(4);
    for (idempotent, end) in [(false, ClientState::AckPending), (true, ClientState::Complete)] {
        let (mut client, _, pdus) = replied(idempotent, &reply);
        let notices = [Notice::Count(0), Notice::Count(1), Notice::Count(3), Notice::Last];
        for ((place, told), notice) in MIXED.into_iter().zip(TOLD).zip(notices) {
            let outcome = client.arrive(&pdus[place]);
            assert_eq!((fack(&outcome), outcome.notice()), (Some(told), Some(notice)));
            if place != 3 {
                assert_eq!(client.arrive(&pdus[place]), Outcome::Refused(Refusal::Repeated));
            }
        }
        assert_eq!(client.state(), end);
        assert!(client.message() == reply);
    }
}

/// The header that a fack has: the call's number, its sender's serial as it was, the client's idempotent bit (32).
#[test]
fn a_fack_carries_the_serial_of_its_sender() {
    for (idempotent, mark) in [(false, 0), (true, 32)] {
        let fields = |pdu: &[u8]| {
            let header = Header::read(pdu).expect("a header");
            (header.number(), header.serial(), header.flags())
        };
        let (_, mut server, requests) = requested(idempotent, &message(3));
        for pdu in &requests {
            assert_eq!(fields(&sent(server.arrive(pdu))), (0, 0, 0));
        }
        let (mut client, _, responses) = replied(idempotent, &message(3));
        for pdu in &responses {
            assert_eq!(fields(&sent(client.arrive(pdu))), (0, 1, mark));
        }
    }
}

/// Last fragment is 2, fragment 4, no fack 8.
#[test]
fn the_flags_of_the_pdu_decide() {
    for (flags, expected) in [(0, None), (2, None), (6, Some((0, 0, 1))), (8, None), (10, None), (14, None)] {
        let (_, mut server, mut requests) = requested(false, b"abc");
        requests[0][2] = flags;
        let outcome = server.arrive(&requests[0]);
        assert_eq!((fack(&outcome), outcome.notice()), (expected, Some(Notice::Dispatch)), "flags {flags}");
        let (mut client, _, mut responses) = replied(false, b"abc");
        responses[0][2] = flags;
        let outcome = client.arrive(&responses[0]);
        assert_eq!((fack(&outcome), outcome.notice()), (expected, Some(Notice::Last)), "flags {flags}");
    }
    let (_, mut server, mut requests) = requested(false, &message(4));
    requests[1][2] |= 8;
    assert_eq!(server.arrive(&requests[1]), Outcome::Done { pdu: None, notice: None });
    assert_eq!(fack(&server.arrive(&requests[0])), Some((1, 0, 1)));
}

/// Fragment 3 is lost, and so is the fack of fragment 2: what it would have told costs one fragment more.
#[test]
fn a_request_is_sent_again_from_the_middle() {
    let (mut client, mut server, pdus) = requested(false, &message(4));
    let facks: Vec<Vec<u8>> = pdus[..3].iter().map(|pdu| sent(server.arrive(pdu))).collect();
    for pdu in &facks[..2] {
        assert_eq!(client.arrive(pdu).refusal(), None);
    }
    let nocall = sent(server.arrive(&ping(&mut client)));
    assert_eq!(client.arrive(&nocall), Outcome::Done { pdu: None, notice: None });
    assert_eq!(client.state(), ClientState::SendFrags);
    let again = [sent(client.transmit()), sent(client.transmit())];
    assert_eq!((fragments(&again), client.state()), (vec![2, 3], ClientState::Dispatched));
    assert_eq!(server.arrive(&again[0]), Outcome::Refused(Refusal::Repeated));
    let outcome = server.arrive(&again[1]);
    assert_eq!((fack(&outcome), outcome.notice()), (Some((3, 0, 7)), Some(Notice::Dispatch)));
    assert!(server.message() == message(4));
}

/// The nocall is late: meanwhile fragment 3 has come, and its fack has told so.
#[test]
fn a_request_that_is_acknowledged_to_its_end_is_sent_again_from_0() {
    let (mut client, mut server, pdus) = requested(false, &message(4));
    let mut facks: Vec<Vec<u8>> = pdus[..3].iter().map(|pdu| sent(server.arrive(pdu))).collect();
    let nocall = sent(server.arrive(&ping(&mut client)));
    facks.push(sent(server.arrive(&pdus[3])));
    for pdu in facks.iter().chain([&nocall]) {
        assert_eq!(client.arrive(pdu).refusal(), None);
    }
    assert_eq!(fragments(&[sent(client.transmit())]), [0]);
}

/// A server that holds a reply of four fragments of which it knows that 0 and 1 have come, and its client.
fn half_replied() -> (Client, Server) {
    let (mut client, mut server, pdus) = replied(false, &message(4));
    for pdu in &pdus[..2] {
        let fack = sent(client.arrive(pdu));
        assert_eq!(server.arrive(&fack).refusal(), None);
    }
    (client, server)
}

#[test]
fn a_reply_is_sent_again_from_the_middle() {
    for pinged in [false, true] {
        let (mut client, mut server) = half_replied();
        let ticket = server.armed().expect("RESEND is armed");
        let outcome = if pinged { server.arrive(&ping(&mut client)) } else { server.timer(ticket) };
        assert_eq!(outcome, Outcome::Done { pdu: None, notice: None });
        let again = transmitted(&mut server);
        assert_eq!(fragments(&again), [2, 3]);
        assert_eq!(client.arrive(&again[0]).notice(), Some(Notice::Count(3)));
        let outcome = client.arrive(&again[1]);
        assert_eq!((fack(&outcome), outcome.notice()), (Some((3, 0, 6)), Some(Notice::Last)));
        assert!(client.message() == message(4));
    }
}

/// The ack is late, and RESEND runs out.
#[test]
fn a_reply_that_is_acknowledged_to_its_end_is_sent_again_from_0() {
    let (mut client, mut server, pdus) = replied(false, &message(4));
    for pdu in &pdus {
        let fack = sent(client.arrive(pdu));
        assert_eq!(server.arrive(&fack).refusal(), None);
    }
    let ticket = server.armed().expect("RESEND is armed");
    assert_eq!(server.timer(ticket).refusal(), None);
    assert_eq!(fragments(&transmitted(&mut server)), [0, 1, 2, 3]);
}
