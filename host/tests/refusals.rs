//! What is refused, and that it changes nothing; timers by their tickets.

use morphelai::{
    door, Call, Cause, Client, ClientState, ClientTimer, Header, Notice, Outcome, PduType, Refusal, Server,
    ServerState, HEADER_SIZE, PDU_SIZE, RECORD_SIZE,
};

const ACTIVITY: [u8; 16] = [1; 16];
const CALL: Call = Call { idempotent: false, object: [0; 16], interface: [2; 16], version: 1, operation: 0 };

fn started(request: &[u8]) -> Client {
    let mut client = Client::new(&ACTIVITY, 0).expect("a client");
    assert_eq!(client.start(&CALL, request).refusal(), None);
    client
}

fn sent(outcome: Outcome<'_>) -> Vec<u8> {
    outcome.pdu().expect("a PDU").to_vec()
}

fn type_of(pdu: &[u8]) -> PduType {
    Header::read(pdu).expect("a PDU that can be read").pdu_type()
}

/// A server whose call was dispatched, and the request.
fn running() -> (Server, Vec<u8>) {
    let request = sent(started(b"abc").transmit());
    let mut server = Server::new(&ACTIVITY, 1, 0).expect("a server");
    assert_eq!(server.arrive(&request).notice(), Some(Notice::Dispatch));
    (server, request)
}

#[test]
fn the_record_has_the_size_that_the_wrapper_lends() {
    assert_eq!(door::record_size(), RECORD_SIZE);
}

#[test]
fn a_message_that_is_too_long_is_refused() {
    let mut client = Client::new(&ACTIVITY, 0).expect("a client");
    assert_eq!(client.start(&CALL, &[0; 44_545]), Outcome::Refused(Refusal::Length));
    assert_eq!(client.state(), ClientState::Queued);
    let (mut server, _) = running();
    assert_eq!(server.reply(&[0; 44_545]), Outcome::Refused(Refusal::Length));
    assert_eq!(server.state(), ServerState::Running);
}

#[test]
fn a_refused_start_keeps_the_message_that_is_out() {
    let mut client = started(b"first");
    assert_eq!(client.start(&CALL, b"second"), Outcome::Refused(Refusal::NoRow));
    assert_eq!(sent(client.transmit())[HEADER_SIZE..], *b"first");
    assert_eq!(client.transmit(), Outcome::Refused(Refusal::NoRow));
}

#[test]
fn a_refused_reply_keeps_the_reply_that_is_out() {
    let (mut server, request) = running();
    assert_eq!(server.reply(b"first").refusal(), None);
    assert_eq!(server.reply(b"second"), Outcome::Refused(Refusal::NoRow));
    assert_eq!(server.fault(7), Outcome::Refused(Refusal::NoRow));
    assert_eq!(server.arrive(&request), Outcome::Refused(Refusal::Repeated));
    assert_eq!(sent(server.transmit())[HEADER_SIZE..], *b"first");
}

#[test]
fn datagrams_are_judged() {
    let (mut server, request) = running();
    let changed = |at: usize, byte: u8| {
        let mut datagram = request.clone();
        datagram[at] = byte;
        datagram
    };
    let mut refusal = |datagram: &[u8]| server.arrive(datagram).refusal();
    assert_eq!(refusal(&[]), Some(Refusal::Short));
    assert_eq!(refusal(&request[..79]), Some(Refusal::Short));
    assert_eq!(refusal(&changed(0, 5)), Some(Refusal::Version));
    assert_eq!(refusal(&changed(1, 11)), Some(Refusal::Type));
    assert_eq!(refusal(&changed(4, 32)), Some(Refusal::Representation));
    assert_eq!(refusal(&changed(78, 1)), Some(Refusal::Authentication));
    assert_eq!(refusal(&request[..82]), Some(Refusal::Body));
    assert_eq!(refusal(&changed(40, 9)), Some(Refusal::Activity));
    assert_eq!(refusal(&changed(1, 2)), Some(Refusal::Side));
    assert_eq!(refusal(&changed(2, 16)), Some(Refusal::Semantics));
    assert_eq!(refusal(&changed(76, 1)), Some(Refusal::Fragment));
    assert_eq!(refusal(&changed(8, 1)), Some(Refusal::Contradiction));
    assert_eq!(refusal(&changed(64, 1)), Some(Refusal::NoRow));
    assert_eq!(refusal(&[4; 2048]), Some(Refusal::Representation));
    assert_eq!(server.message(), b"abc");
}

#[test]
fn an_old_call_is_refused() {
    let (mut server, request) = running();
    assert_eq!(server.reply(b"done").refusal(), None);
    let response = sent(server.transmit());
    let mut client = started(b"abc");
    assert_eq!(client.arrive(&response).notice(), Some(Notice::Last));
    let ticket = client.armed(ClientTimer::Ack).expect("ACK is armed");
    let ack = sent(client.timer(ClientTimer::Ack, ticket));
    assert_eq!((type_of(&ack), client.state()), (PduType::Ack, ClientState::Complete));
    assert_eq!(server.arrive(&ack).refusal(), None);
    assert_eq!((server.state(), server.armed()), (ServerState::IdleSpent, None));
    assert_eq!(server.arrive(&request), Outcome::Refused(Refusal::OldCall));
}

#[test]
fn wait_runs_out_with_its_ticket_only_and_ends_the_call_at_the_sixth_time() {
    let mut client = started(b"abc");
    assert_eq!(client.armed(ClientTimer::Wait), None);
    let _ = sent(client.transmit());
    for _ in 0..5 {
        let ticket = client.armed(ClientTimer::Wait).expect("WAIT is armed");
        assert_eq!(client.timer(ClientTimer::Wait, ticket + 1), Outcome::Refused(Refusal::LateTimer));
        assert_eq!(client.timer(ClientTimer::Ack, ticket).refusal(), Some(Refusal::NoRow));
        assert_eq!(type_of(&sent(client.timer(ClientTimer::Wait, ticket))), PduType::Ping);
        assert_ne!(client.armed(ClientTimer::Wait), Some(ticket));
        assert_eq!(client.timer(ClientTimer::Wait, ticket), Outcome::Refused(Refusal::LateTimer));
    }
    let ticket = client.armed(ClientTimer::Wait).expect("WAIT is armed");
    assert_eq!(client.timer(ClientTimer::Wait, ticket).notice(), Some(Notice::Cause(Cause::NoAnswer)));
    assert_eq!((client.state(), client.armed(ClientTimer::Wait)), (ClientState::Fault, None));
}

#[test]
fn resend_runs_out_with_its_ticket_and_sends_the_reply_again() {
    let (mut server, _) = running();
    assert_eq!(server.reply(b"done").refusal(), None);
    let _ = sent(server.transmit());
    let ticket = server.armed().expect("RESEND is armed");
    assert_eq!(server.timer(ticket + 1), Outcome::Refused(Refusal::LateTimer));
    assert_eq!(server.timer(ticket).refusal(), None);
    assert_eq!((server.state(), server.armed()), (ServerState::Replying, None));
    assert_eq!(sent(server.transmit())[HEADER_SIZE..], *b"done");
    assert_ne!(server.armed(), Some(ticket));
}

#[test]
fn a_ticket_counter_that_is_used_up_is_told() {
    let mut client = Client::new(&ACTIVITY, u64::MAX).expect("a client");
    assert_eq!(client.start(&CALL, b"abc").refusal(), None);
    assert_eq!(client.transmit(), Outcome::Refused(Refusal::TicketsUsedUp));
    assert_eq!(client.state(), ClientState::SendFrags);
}

#[test]
fn a_header_that_is_written_is_read_again() {
    let pdu = sent(started(b"abc").transmit());
    let header = Header::read(&pdu).expect("a header");
    assert_eq!((header.activity(), header.number(), header.serial()), (ACTIVITY, 0, 1));
    let mut buffer = [9; PDU_SIZE];
    assert_eq!(header.write(b"abc", &mut buffer), Ok(83));
    assert_eq!((&buffer[..83], &buffer[83..]), (&pdu[..], &[9; PDU_SIZE - 83][..]));
    assert_eq!(header.write(&[0; 1393], &mut buffer), Err(Refusal::Body));
    let mut bytes = *header.bytes();
    bytes[1] = 11;
    assert_eq!(Header::from_bytes(bytes).write(b"", &mut buffer), Err(Refusal::Type));
    assert_eq!(Header::read(&pdu[..79]), Err(Refusal::Short));
}
