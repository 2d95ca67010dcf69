//! Cancels: what a client sends and waits for, what a server answers and tells its stub, and what each refuses.

use morphelai::{
    door, Call, Cause, Client, ClientState, ClientTimer, Header, Notice, Outcome, PduType, Refusal, Server,
    ServerState, FRAGMENT_SIZE, HEADER_SIZE, PDU_SIZE, RECORD_SIZE,
};

const ACTIVITY: [u8; 16] = [1; 16];
const STATUS: u32 = 0x1c00_000d;
const NOTHING: Outcome<'static> = Outcome::Done { pdu: None, notice: None };
/// Where the cancel number lies in a record of either side.
const CANCEL_NUMBER: std::ops::Range<usize> = 68..72;

fn call(idempotent: bool) -> Call {
    Call { idempotent, object: [3; 16], interface: [2; 16], version: 70_000, operation: 258 }
}

fn sent(outcome: Outcome<'_>) -> Vec<u8> {
    assert_eq!(outcome.refusal(), None);
    outcome.pdu().expect("a PDU").to_vec()
}

fn header(pdu: &[u8]) -> Header {
    Header::read(pdu).expect("a PDU that can be read")
}

/// A PDU with the header of another one, of another type and body.
fn with(pdu: &[u8], pdu_type: u8, body: &[u8]) -> Vec<u8> {
    let mut bytes = *header(pdu).bytes();
    bytes[1] = pdu_type;
    let mut buffer = [0; PDU_SIZE];
    let length = Header::from_bytes(bytes).write(body, &mut buffer).expect("a PDU");
    buffer[..length].to_vec()
}

/// A body of numbers, little-endian.
fn words(numbers: &[u32]) -> Vec<u8> {
    numbers.iter().flat_map(|number| number.to_le_bytes()).collect()
}

fn cancel(pdu: &[u8], number: u32) -> Vec<u8> {
    with(pdu, 8, &words(&[0, number]))
}

fn cancel_ack(pdu: &[u8], number: u32, accepts: u32) -> Vec<u8> {
    with(pdu, 10, &words(&[0, number, accepts]))
}

/// A client that has started a call with a request of so many fragments, of which none is sent.
fn started(idempotent: bool, fragments: usize, tickets: u64) -> Client {
    let mut client = Client::new(&ACTIVITY, tickets).expect("a client");
    assert_eq!(client.start(&call(idempotent), &vec![7; fragments * FRAGMENT_SIZE]).refusal(), None);
    client
}

/// A client in DISPATCHED, with its request.
fn dispatched(idempotent: bool) -> (Client, Vec<u8>) {
    let mut client = started(idempotent, 1, 0);
    let request = sent(client.transmit());
    (client, request)
}

/// A server in RUNNING, with the request.
fn running(idempotent: bool) -> (Server, Vec<u8>) {
    let (_, request) = dispatched(idempotent);
    let mut server = Server::new(&ACTIVITY, 9, 0).expect("a server");
    assert_eq!(server.arrive(&request).notice(), Some(Notice::Dispatch));
    (server, request)
}

/// What a server answers to a cancel of its call with this number: the body's three words, and the notice.
fn answered(server: &mut Server, request: &[u8], number: u32) -> (Vec<u8>, Option<Notice>) {
    let outcome = server.arrive(&cancel(request, number));
    let notice = outcome.notice();
    let pdu = sent(outcome);
    assert_eq!(header(&pdu).pdu_type(), PduType::CancelAck);
    (pdu[HEADER_SIZE..].to_vec(), notice)
}

fn armed(client: &Client) -> [Option<u64>; 3] {
    [ClientTimer::Wait, ClientTimer::Ack, ClientTimer::Cancel].map(|kind| client.armed(kind))
}

#[test]
fn a_cancel_goes_there_and_its_ack_comes_back() {
    for idempotent in [false, true] {
        let (mut client, request) = dispatched(idempotent);
        let (mut server, _) = running(idempotent);
        assert_eq!(client.armed(ClientTimer::Cancel), None);
        let pdu = sent(client.cancel());
        let head = header(&pdu);
        let flags = if idempotent { 32 } else { 0 };
        assert_eq!((head.pdu_type(), head.flags(), head.fragment()), (PduType::Cancel, flags, 0));
        assert_eq!((head.serial(), head.number(), head.body_length()), (1, 0, 8));
        assert_eq!(pdu[8..40], request[8..40]);
        assert_eq!(pdu[56..74], request[56..74]);
        assert_eq!(pdu[HEADER_SIZE..], words(&[0, 1]));
        let outcome = server.arrive(&pdu);
        assert_eq!(outcome.notice(), Some(Notice::Cancel));
        let ack = sent(outcome);
        let head = header(&ack);
        assert_eq!((head.pdu_type(), head.flags(), head.fragment()), (PduType::CancelAck, 0, 0));
        assert_eq!((head.serial(), head.number(), head.body_length()), (0, 0, 12));
        assert_eq!((&ack[8..56], &ack[56..60], &ack[60..74]), (&pdu[8..56], &[9, 0, 0, 0][..], &pdu[60..74]));
        assert_eq!(ack[HEADER_SIZE..], words(&[0, 1, 1]));
        assert!(client.armed(ClientTimer::Cancel).is_some());
        assert_eq!(client.arrive(&ack), NOTHING);
        assert_eq!((client.armed(ClientTimer::Cancel), client.state()), (None, ClientState::Dispatched));
        let fault = sent(server.fault(STATUS));
        assert_eq!(client.arrive(&fault).notice(), Some(Notice::Fault(STATUS)));
    }
}

/// Case 1. Only the ack of the last number disarms; accepts 0 does as accepts 1.
#[test]
fn of_two_cancels_the_ack_of_the_second_disarms() {
    for accepts in [0, 1] {
        let (mut client, request) = dispatched(false);
        let _ = sent(client.cancel());
        let before = armed(&client);
        assert_eq!(sent(client.cancel())[HEADER_SIZE..], words(&[0, 2]));
        assert_eq!(armed(&client), before);
        assert_eq!(client.arrive(&cancel_ack(&request, 1, accepts)), Outcome::Refused(Refusal::NoRow));
        assert_eq!(client.arrive(&cancel_ack(&request, 3, accepts)), Outcome::Refused(Refusal::NoRow));
        assert_eq!(armed(&client), before);
        assert_eq!(client.arrive(&cancel_ack(&request, 2, accepts)), NOTHING);
        assert_eq!(armed(&client), [before[0], None, None]);
        assert_eq!(client.arrive(&cancel_ack(&request, 2, accepts)), Outcome::Refused(Refusal::NoRow));
        assert_eq!(sent(client.cancel())[HEADER_SIZE..], words(&[0, 3]));
        assert!(client.armed(ClientTimer::Cancel) > before[2]);
    }
}

/// Case 2.
#[test]
fn cancel_and_wait_are_armed_at_once_each_with_its_own_ticket() {
    let mut client = started(false, 2, 0);
    let _ = sent(client.transmit());
    let _ = sent(client.cancel());
    let ticket = client.armed(ClientTimer::Cancel).expect("CANCEL is armed");
    assert_eq!((client.state(), client.armed(ClientTimer::Wait)), (ClientState::SendFrags, None));
    assert_eq!(client.timer(ClientTimer::Wait, ticket), Outcome::Refused(Refusal::NoRow));
    assert_eq!(client.timer(ClientTimer::Cancel, ticket + 1), Outcome::Refused(Refusal::LateTimer));
    let _ = sent(client.transmit());
    let wait = client.armed(ClientTimer::Wait).expect("WAIT is armed");
    assert_eq!((client.state(), client.armed(ClientTimer::Cancel)), (ClientState::Dispatched, Some(ticket)));
    assert_ne!(wait, ticket);
    assert_eq!(client.timer(ClientTimer::Wait, ticket), Outcome::Refused(Refusal::LateTimer));
    assert_eq!(client.timer(ClientTimer::Cancel, wait), Outcome::Refused(Refusal::LateTimer));
    assert_eq!(armed(&client), [Some(wait), None, Some(ticket)]);
}

/// Case 3, where a PDU ends the call. The idempotent bit decides whether an ack is owed.
#[test]
fn an_end_of_the_call_disarms_cancel() {
    let status = STATUS.to_le_bytes();
    let ends = [(2, &b"done"[..]), (3, &status), (6, &status)];
    for (pdu_type, body) in ends {
        for idempotent in [false, true] {
            let (mut client, request) = dispatched(idempotent);
            let _ = sent(client.cancel());
            let ticket = client.armed(ClientTimer::Cancel).expect("CANCEL is armed");
            assert!(client.arrive(&with(&request, pdu_type, body)).notice().is_some());
            let owes_ack = pdu_type == 2 && !idempotent;
            assert_eq!(armed(&client).map(|armed| armed.is_some()), [false, owes_ack, false]);
            assert_eq!(client.timer(ClientTimer::Cancel, ticket), Outcome::Refused(Refusal::NoRow));
            assert_eq!(client.cancel(), Outcome::Refused(Refusal::NoRow));
            assert_eq!(client.arrive(&cancel_ack(&request, 1, 1)), Outcome::Refused(Refusal::NoRow));
        }
    }
}

/// Case 3, where the client gives the call up for another cause.
#[test]
fn the_sixth_wait_and_the_sixth_nocall_disarm_cancel() {
    let (mut client, _) = dispatched(false);
    let _ = sent(client.cancel());
    let cancel_ticket = client.armed(ClientTimer::Cancel);
    for time in 1..=6 {
        assert_eq!(client.armed(ClientTimer::Cancel), cancel_ticket);
        let ticket = client.armed(ClientTimer::Wait).expect("WAIT is armed");
        let cause = (time == 6).then_some(Notice::Cause(Cause::NoAnswer));
        assert_eq!(client.timer(ClientTimer::Wait, ticket).notice(), cause);
    }
    assert_eq!((client.state(), armed(&client)), (ClientState::Fault, [None; 3]));
    let (mut client, request) = dispatched(false);
    let _ = sent(client.cancel());
    let cancel_ticket = client.armed(ClientTimer::Cancel);
    for time in 1..=6 {
        assert_eq!(client.armed(ClientTimer::Cancel), cancel_ticket);
        let cause = (time == 6).then_some(Notice::Cause(Cause::NoCall));
        assert_eq!(client.arrive(&with(&request, 5, b"")).notice(), cause);
        assert_eq!(client.transmit().refusal().is_some(), time == 6);
    }
    assert_eq!((client.state(), armed(&client)), (ClientState::Fault, [None; 3]));
}

/// What does not end the call leaves CANCEL as it is.
#[test]
fn working_facks_pings_and_fragments_leave_cancel_alone() {
    let (mut client, request) = dispatched(false);
    let _ = sent(client.cancel());
    let ticket = client.armed(ClientTimer::Cancel);
    assert_eq!(client.arrive(&with(&request, 4, b"")), NOTHING);
    let wait = client.armed(ClientTimer::Wait).expect("WAIT is armed");
    assert_eq!(header(&sent(client.timer(ClientTimer::Wait, wait))).pdu_type(), PduType::Ping);
    let mut fragment = with(&request, 2, b"a part of several");
    fragment[2] = 4;
    assert_eq!(client.arrive(&fragment).notice(), Some(Notice::Count(1)));
    assert_eq!((client.state(), client.armed(ClientTimer::Cancel)), (ClientState::ReceiveFrags, ticket));
    assert_eq!(sent(client.cancel())[HEADER_SIZE..], words(&[0, 2]));
    assert_eq!(client.armed(ClientTimer::Cancel), ticket);
}

/// Case 4.
#[test]
fn when_cancel_runs_out_the_call_is_given_up() {
    for sends in [false, true] {
        let mut client = started(false, 2, 0);
        let _ = sent(client.transmit());
        if !sends {
            let _ = sent(client.transmit());
        }
        assert_eq!(client.timer(ClientTimer::Cancel, 0), Outcome::Refused(Refusal::LateTimer));
        let _ = sent(client.cancel());
        let [wait, _, cancel] = armed(&client);
        let cancel = cancel.expect("CANCEL is armed");
        let given_up = Outcome::Done { pdu: None, notice: Some(Notice::Cause(Cause::NoCancelAck)) };
        assert_eq!(client.timer(ClientTimer::Cancel, cancel), given_up);
        assert_eq!((client.state(), armed(&client)), (ClientState::Fault, [None; 3]));
        assert_eq!(client.timer(ClientTimer::Cancel, cancel), Outcome::Refused(Refusal::NoRow));
        assert_eq!(client.timer(ClientTimer::Wait, wait.unwrap_or(cancel)), Outcome::Refused(Refusal::NoRow));
    }
}

/// Case 5.
#[test]
fn tickets_used_up_are_told_only_where_cancel_must_be_armed() {
    let mut client = started(false, 1, u64::MAX);
    assert_eq!(client.cancel(), Outcome::Refused(Refusal::TicketsUsedUp));
    assert_eq!((client.state(), armed(&client)), (ClientState::SendFrags, [None; 3]));
    let mut client = started(false, 1, u64::MAX - 1);
    assert_eq!(sent(client.cancel())[HEADER_SIZE..], words(&[0, 1]));
    assert_eq!(sent(client.cancel())[HEADER_SIZE..], words(&[0, 2]));
    assert_eq!(armed(&client), [None, None, Some(u64::MAX)]);
    assert_eq!(client.transmit(), Outcome::Refused(Refusal::TicketsUsedUp));
}

/// Case 6, on a record whose cancel number is put at its last; and that a start begins at 1 again.
#[test]
fn numbers_used_up_are_refused_until_the_next_start() {
    let (mut record, mut pdu, uuid) = ([0; RECORD_SIZE], [0; PDU_SIZE], [2; 16]);
    assert_eq!(door::client_fresh(&mut record, &ACTIVITY, 0), 0);
    assert_eq!(door::client_start(&mut record, 0, &uuid, &uuid, 1, 0, 0), 0);
    record[CANCEL_NUMBER].copy_from_slice(&(u32::MAX - 1).to_le_bytes());
    assert_eq!(door::client_cancel(&mut record, &mut pdu), 88 << 16);
    assert_eq!(pdu[HEADER_SIZE..88], words(&[0, u32::MAX]));
    let before = record;
    assert_eq!(door::client_cancel(&mut record, &mut pdu), 15);
    assert_eq!(record, before);
    assert_eq!(door::client_timer(&mut record, 4, 1, &mut pdu), 3 << 32 | 5 << 8);
    assert_eq!(door::client_start(&mut record, 0, &uuid, &uuid, 1, 0, 0), 0);
    assert_eq!(record[CANCEL_NUMBER], [0; 4]);
    assert_eq!(door::client_cancel(&mut record, &mut pdu), 88 << 16);
    assert_eq!(pdu[HEADER_SIZE..88], words(&[0, 1]));
}

/// Case 7.
#[test]
fn the_stub_is_told_of_each_higher_number_once() {
    let (mut server, request) = running(false);
    let told = [(0, false), (5, true), (5, false), (3, false), (6, true), (0, false), (u32::MAX, true)];
    for (number, notice) in told {
        let expected = (words(&[0, number, 1]), notice.then_some(Notice::Cancel));
        assert_eq!(answered(&mut server, &request, number), expected, "number {number}");
        assert_eq!((server.state(), server.armed()), (ServerState::Running, None));
    }
}

/// Case 7: a cancel that comes before the whole request is answered, and not remembered.
#[test]
fn a_cancel_before_the_dispatch_is_told_when_it_comes_again() {
    let mut client = started(false, 2, 0);
    let fragments = [sent(client.transmit()), sent(client.transmit())];
    let mut server = Server::new(&ACTIVITY, 9, 0).expect("a server");
    assert_eq!(server.arrive(&fragments[1]).notice(), None);
    assert_eq!(answered(&mut server, &fragments[0], 4), (words(&[0, 4, 0]), None));
    assert_eq!(server.state(), ServerState::Collect);
    assert_eq!(server.arrive(&fragments[0]).notice(), Some(Notice::Dispatch));
    assert_eq!(answered(&mut server, &fragments[0], 4), (words(&[0, 4, 1]), Some(Notice::Cancel)));
}

/// A begin forgets the number: a second run of an idempotent call is told of a cancel that the first run was told of.
#[test]
fn a_second_run_is_told_of_an_old_cancel() {
    let (mut server, request) = running(true);
    assert_eq!(answered(&mut server, &request, 1).1, Some(Notice::Cancel));
    let _ = sent(server.fault(STATUS));
    assert_eq!(server.state(), ServerState::IdleRepeatable);
    assert_eq!(server.arrive(&request).notice(), Some(Notice::Dispatch));
    assert_eq!(answered(&mut server, &request, 1).1, Some(Notice::Cancel));
}

/// Case 8: after the answer nothing is told, and RESEND goes on.
#[test]
fn a_cancel_after_the_answer_is_answered_by_0() {
    let (mut server, request) = running(false);
    assert_eq!(server.reply(b"done").refusal(), None);
    assert_eq!(answered(&mut server, &request, 1), (words(&[0, 1, 0]), None));
    assert_eq!(server.state(), ServerState::Replying);
    let response = sent(server.transmit());
    let resend = server.armed();
    assert_eq!(answered(&mut server, &request, 2), (words(&[0, 2, 0]), None));
    assert_eq!((server.state(), server.armed()), (ServerState::HeldData, resend));
    assert_eq!(response[HEADER_SIZE..], *b"done");
    let (mut server, request) = running(false);
    let _ = sent(server.fault(STATUS));
    let resend = server.armed();
    assert_eq!(answered(&mut server, &request, 1), (words(&[0, 1, 0]), None));
    assert_eq!((server.state(), server.armed()), (ServerState::HeldFault, resend));
}

/// Case 8: what is refused, and that 13 comes before 14, and 14 before 15.
#[test]
fn a_cancel_of_another_call_is_refused() {
    let (mut client, request) = dispatched(false);
    let response = with(&request, 2, b"done");
    assert_eq!(client.arrive(&response).notice(), Some(Notice::Last));
    assert_eq!(client.start(&call(false), b"abc").refusal(), None);
    let next = sent(client.transmit());
    let mut fresh = Server::new(&ACTIVITY, 9, 0).expect("a server");
    assert_eq!(fresh.arrive(&cancel(&request, 1)), Outcome::Refused(Refusal::NoRow));
    assert_eq!(fresh.arrive(&with(&request, 8, &[0; 7])), Outcome::Refused(Refusal::Malformed));
    let (mut server, _) = running(false);
    assert_eq!(server.arrive(&cancel(&next, 1)), Outcome::Refused(Refusal::NoRow));
    assert_eq!(server.arrive(&with(&next, 8, &[0; 7])), Outcome::Refused(Refusal::Malformed));
    let _ = sent(server.fault(STATUS));
    assert_eq!(server.arrive(&with(&request, 7, b"")), NOTHING);
    assert_eq!(server.state(), ServerState::IdleSpent);
    assert_eq!(server.arrive(&cancel(&request, 1)), Outcome::Refused(Refusal::NoRow));
    assert_eq!(server.arrive(&next).notice(), Some(Notice::Dispatch));
    assert_eq!(server.arrive(&cancel(&request, 1)), Outcome::Refused(Refusal::OldCall));
    assert_eq!(server.arrive(&with(&request, 8, &[0; 7])), Outcome::Refused(Refusal::OldCall));
    let (mut server, request) = running(true);
    let _ = sent(server.fault(STATUS));
    assert_eq!(server.state(), ServerState::IdleRepeatable);
    assert_eq!(server.arrive(&cancel(&request, 1)), Outcome::Refused(Refusal::NoRow));
}

/// Case 9: bodies of a cancel, in both byte orders.
#[test]
fn a_malformed_cancel_is_refused() {
    let (mut server, request) = running(false);
    for length in [0, 7, 9, 12] {
        let outcome = server.arrive(&with(&request, 8, &vec![0; length]));
        assert_eq!(outcome, Outcome::Refused(Refusal::Malformed), "{length} bytes");
    }
    for version in [1, 256, 1 << 24] {
        let outcome = server.arrive(&with(&request, 8, &words(&[version, 1])));
        assert_eq!(outcome, Outcome::Refused(Refusal::Malformed), "version {version}");
    }
    let outcome = server.arrive(&big_endian(&cancel(&request, 258)));
    assert_eq!(outcome.notice(), Some(Notice::Cancel));
    assert_eq!(sent(outcome)[HEADER_SIZE..], words(&[0, 258, 1]));
}

/// Case 9: bodies of a cancel_ack, in both byte orders.
#[test]
fn a_malformed_cancel_ack_is_refused() {
    let (mut client, request) = dispatched(false);
    let _ = sent(client.cancel());
    for length in [0, 7, 8, 9, 11, 13, 16] {
        let outcome = client.arrive(&with(&request, 10, &vec![0; length]));
        assert_eq!(outcome, Outcome::Refused(Refusal::Malformed), "{length} bytes");
    }
    for body in [[1, 1, 1], [0, 1, 2], [0, 1, 256], [0, 1, 1 << 24], [0, 1, u32::MAX]] {
        let outcome = client.arrive(&with(&request, 10, &words(&body)));
        assert_eq!(outcome, Outcome::Refused(Refusal::Malformed), "{body:?}");
    }
    assert!(client.armed(ClientTimer::Cancel).is_some());
    assert_eq!(client.arrive(&big_endian(&cancel_ack(&request, 1, 1))), NOTHING);
    assert_eq!(client.armed(ClientTimer::Cancel), None);
}

/// The same PDU of a big-endian sender: the numbers of its header and the words of its body are turned round.
fn big_endian(pdu: &[u8]) -> Vec<u8> {
    let mut turned = pdu.to_vec();
    let uuids = [8, 24, 40].into_iter().flat_map(|at| [(at, 4), (at + 4, 2), (at + 6, 2)]);
    let numbers = [(56, 4), (60, 4), (64, 4), (68, 2), (70, 2), (72, 2), (74, 2), (76, 2)];
    let body = (HEADER_SIZE..pdu.len()).step_by(4).map(|at| (at, 4));
    for (at, size) in uuids.chain(numbers).chain(body) {
        turned[at..at + size].reverse();
    }
    turned[4] = 0;
    turned
}

/// Case 10; and an ack of another call, or before the first.
#[test]
fn the_wrong_side_and_an_old_call_are_refused() {
    let (mut client, request) = dispatched(false);
    let (mut server, _) = running(false);
    assert_eq!(client.arrive(&cancel(&request, 1)), Outcome::Refused(Refusal::Side));
    assert_eq!(server.arrive(&cancel_ack(&request, 1, 1)), Outcome::Refused(Refusal::Side));
    let mut fresh = Client::new(&ACTIVITY, 0).expect("a client");
    assert_eq!(fresh.cancel(), Outcome::Refused(Refusal::NoRow));
    assert_eq!(fresh.arrive(&cancel_ack(&request, 0, 1)), Outcome::Refused(Refusal::OldCall));
    let mut other = cancel_ack(&request, 1, 1);
    other[64] = 1;
    assert_eq!(client.arrive(&other), Outcome::Refused(Refusal::OldCall));
    assert_eq!(client.arrive(&other[..91]), Outcome::Refused(Refusal::Body));
}

/// The kinds of timers by number: 4 is the client's alone.
#[test]
fn a_server_has_no_cancel_timer() {
    let (mut record, mut pdu, mut short) = ([0; RECORD_SIZE], [0; PDU_SIZE], [0; PDU_SIZE - 1]);
    assert_eq!(door::server_fresh(&mut record, &ACTIVITY, 9, 0), 0);
    for kind in [0, 1, 2, 4, 5, 255] {
        assert_eq!(door::server_timer(&mut record, kind, 0, &mut pdu), 15, "kind {kind}");
    }
    assert_eq!(door::server_timer(&mut record, 4, 0, &mut short), 1);
    assert_eq!(door::client_fresh(&mut record, &ACTIVITY, 0), 0);
    assert_eq!(door::client_cancel(&mut record, &mut pdu), 15);
    assert_eq!(door::client_cancel(&mut record, &mut short), 1);
    assert_eq!(door::client_cancel(&mut record[..RECORD_SIZE - 1], &mut pdu), 1);
    record[0] = 7;
    assert_eq!(door::client_cancel(&mut record, &mut pdu), 2);
}

/// The rules of records: CANCEL is armed only in the three states of a call that is out, with a ticket that was given.
#[test]
fn a_record_with_cancel_armed_where_it_cannot_be_is_refused() {
    let (mut record, mut pdu, uuid) = ([0; RECORD_SIZE], [0; PDU_SIZE], [2; 16]);
    assert_eq!(door::client_fresh(&mut record, &ACTIVITY, 5), 0);
    assert_eq!(door::client_start(&mut record, 0, &uuid, &uuid, 1, 0, 0), 0);
    for (state, armed, ticket, answer) in [(1, 1, 5, 0), (1, 1, 6, 2), (1, 2, 5, 2), (6, 1, 5, 2), (6, 0, 5, 15)] {
        let mut lent = record;
        (lent[0], lent[66], lent[56]) = (state, armed, ticket);
        let result = door::client_cancel(&mut lent, &mut pdu);
        assert_eq!(result as u8, answer, "state {state}, armed {armed}, ticket {ticket}");
    }
}
