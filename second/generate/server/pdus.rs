//! PDUs that arrive at a server, made to fit its record or to miss it in one point.

use crate::codec::pdu::{flags1, pdu_type, Header};
use crate::generate::arriving::{Arriving, FACK_WAYS, IMPOSSIBLE_WAYS};
use crate::generate::cancel::{CANCEL_ACK_WAYS, CANCEL_WAYS};
use crate::generate::fragment::{
    contradicting, impossible, lacking, repeated, sent_again, Place, CONTRADICTIONS,
};
use crate::generate::parts::any_call;
use crate::generate::random::Random;
use crate::records::call::Call;
use crate::records::incoming::Incoming;
use crate::records::server::{Server, State};

/// The types that no server takes.
const OTHER_TYPES: [u8; 6] = [
    pdu_type::RESPONSE,
    pdu_type::FAULT,
    pdu_type::WORKING,
    pdu_type::NOCALL,
    pdu_type::REJECT,
    pdu_type::CANCEL_ACK,
];

/// The ways in which a body is malformed that a server judges.
pub const MALFORMED_WAYS: usize = FACK_WAYS + CANCEL_WAYS;

/// Another idempotent bit, object, interface, version or operation.
pub const CALL_CHANGES: usize = 5;

/// A PDU with the number of the server's call. A request names the call as well; in the others
/// what names it is anything, since it is not judged there.
pub fn of_type(pdu_type: u8, server: &Server, random: &mut Random) -> Arriving {
    let mut arriving = Arriving::of_type(pdu_type, server, random);
    if pdu_type == pdu_type::REQUEST {
        arriving.header.flags1 &= !(flags1::MAYBE | flags1::BROADCAST);
        set_call(&mut arriving.header, &server.call);
    }
    arriving
}

pub fn set_call(header: &mut Header, call: &Call) {
    header.flags1 &= !flags1::IDEMPOTENT;
    if call.idempotent {
        header.flags1 |= flags1::IDEMPOTENT;
    }
    header.object = call.object;
    header.interface = call.interface;
    header.interface_version = call.version;
    header.operation = call.operation;
}

/// A request of the server's call with the fragment given, any other flags that are not judged.
pub fn request_at((number, bits): Place, server: &Server, random: &mut Random) -> Arriving {
    of_type(pdu_type::REQUEST, server, random).with_fragment(number, bits)
}

/// The same PDU of a newer call, if the server's number leaves one. A request names another call.
pub fn newer(mut arriving: Arriving, server: &Server, random: &mut Random) -> Arriving {
    let next = server.number.saturating_add(1);
    let any = random.between(next as usize, u32::MAX as usize) as u32;
    arriving.header.call_number = match server.state {
        State::IdleFresh => random.pick(&[0, server.number, any]),
        _ => random.pick(&[next, next, u32::MAX, any]),
    };
    if arriving.header.pdu_type == pdu_type::REQUEST {
        set_call(&mut arriving.header, &any_call(random));
    }
    arriving
}

/// The same PDU of an older call, if the server's number leaves one.
pub fn older(mut arriving: Arriving, server: &Server, random: &mut Random) -> Arriving {
    let number = server.number;
    if number > 0 {
        let any = random.between(0, number as usize - 1) as u32;
        arriving.header.call_number = random.pick(&[number - 1, number - 1, 0, any]);
    }
    arriving
}

/// A request that the record has a row for, if it has one.
pub fn request(server: &Server, random: &mut Random) -> Arriving {
    let again = sent_again(&server.incoming, random);
    let fresh = lacking(&Incoming::empty(), random);
    match server.state {
        State::Collect if random.percent(80) => {
            let place = lacking(&server.incoming, random);
            request_at(place, server, random)
        }
        State::Running => request_at(again, server, random),
        State::HeldData | State::HeldFault if random.percent(70) => {
            request_at(again, server, random)
        }
        State::IdleRepeatable if random.percent(60) => {
            let mut arriving = request_at(fresh, server, random);
            arriving.header.flags1 |= flags1::IDEMPOTENT;
            arriving
        }
        _ => newer(request_at(fresh, server, random), server, random),
    }
}

pub fn ping(server: &Server, random: &mut Random) -> Arriving {
    let ping = of_type(pdu_type::PING, server, random);
    if server.state == State::Replying || random.percent(30) {
        return newer(ping, server, random);
    }
    ping
}

/// The numbers of cancels that are next to the last one seen, or far from it.
pub fn numbers_beside(seen: u32) -> [u32; 6] {
    [
        seen,
        seen.wrapping_sub(1),
        seen.wrapping_add(1),
        seen ^ 1 << 31,
        0,
        u32::MAX,
    ]
}

/// A cancel of the server's call, mostly with a number beside the last one seen.
pub fn cancel(server: &Server, random: &mut Random) -> Arriving {
    let any = random.field_u32();
    let beside = random.pick(&numbers_beside(server.own.cancel_number));
    let number = random.pick(&[beside, beside, any]);
    Arriving::cancel_of(number, server, random)
}

/// A PDU that the record has a row for, mostly.
pub fn good(server: &Server, random: &mut Random) -> Arriving {
    match random.between(0, 10) {
        0..=4 => request(server, random),
        5..=6 => ping(server, random),
        10 if server.state.answers_cancel() => cancel(server, random),
        7 if server.state.has_answer() => of_type(pdu_type::ACK, server, random),
        _ if server.state.has_answer() => Arriving::fack(server, random),
        _ => request(server, random),
    }
}

/// A request of the server's call with a fragment that it holds, if it holds one.
pub fn repeated_request(server: &Server, random: &mut Random) -> Arriving {
    let place = repeated(&server.incoming, random);
    request_at(place, server, random)
}

/// A request with a number that no fragment has, or one that needs the fragment bit.
pub fn impossible_request(way: usize, server: &Server, random: &mut Random) -> Arriving {
    let place = impossible(way, &server.incoming, random);
    let arriving = request_at(place, server, random);
    if random.percent(25) {
        return newer(arriving, server, random);
    }
    arriving
}

pub fn any_impossible(server: &Server, random: &mut Random) -> Arriving {
    let way = random.between(0, IMPOSSIBLE_WAYS - 1);
    impossible_request(way, server, random)
}

/// A fack or cancel whose body is malformed in one of so many ways.
pub fn malformed(way: usize, server: &Server, random: &mut Random) -> Arriving {
    if way < FACK_WAYS {
        return Arriving::malformed_fack(way, server, random);
    }
    let mut arriving = cancel(server, random);
    arriving.damage_cancel(way - FACK_WAYS, random);
    arriving
}

pub fn any_malformed(server: &Server, random: &mut Random) -> Arriving {
    let way = random.between(0, MALFORMED_WAYS - 1);
    let arriving = malformed(way, server, random);
    if random.percent(20) {
        return newer(arriving, server, random);
    }
    arriving
}

/// A PDU of a type that no server takes; a fault, reject or cancel_ack among them may be malformed.
pub fn other_type(server: &Server, random: &mut Random) -> Arriving {
    let pdu_type = random.pick(&OTHER_TYPES);
    let mut arriving = of_type(pdu_type, server, random);
    if matches!(pdu_type, pdu_type::FAULT | pdu_type::REJECT) && random.percent(50) {
        arriving.body.truncate(random.between(0, 3));
    }
    if pdu_type == pdu_type::CANCEL_ACK && random.percent(50) {
        arriving.damage_cancel(random.between(0, CANCEL_ACK_WAYS - 1), random);
    }
    if pdu_type == pdu_type::RESPONSE && random.percent(50) {
        arriving.header.fragment_number = random.pick(&[32, 65_535]);
    }
    arriving
}

/// A request that is as it should be but for what names its call.
pub fn change_call(way: usize, header: &mut Header, random: &mut Random) {
    match way {
        0 => header.flags1 ^= flags1::IDEMPOTENT,
        1 => header.object[random.between(0, 15)] ^= 1 << random.between(0, 7),
        2 => header.interface[random.between(0, 15)] ^= 1 << random.between(0, 7),
        3 => header.interface_version ^= 1 << random.between(0, 31),
        _ => header.operation ^= 1 << random.between(0, 15),
    }
}

/// A request that contradicts what is held, one of another call with the same number, or a fack of
/// more than is out.
pub fn contradiction(server: &Server, random: &mut Random) -> Arriving {
    if server.state.has_answer() && random.percent(30) {
        return Arriving::fack_of_more(server, random);
    }
    let way = random.between(0, CONTRADICTIONS);
    if let Some(place) = contradicting(way, &server.incoming, random) {
        return request_at(place, server, random);
    }
    let mut arriving = request(server, random);
    arriving.header.call_number = server.number;
    set_call(&mut arriving.header, &server.call);
    change_call(
        random.between(0, CALL_CHANGES - 1),
        &mut arriving.header,
        random,
    );
    arriving
}

/// A PDU that the record has no row for.
pub fn without_a_row(server: &Server, random: &mut Random) -> Arriving {
    let kind = random.pick(&[pdu_type::ACK, pdu_type::FACK, pdu_type::CANCEL]);
    let arriving = match kind {
        pdu_type::FACK => Arriving::fack(server, random),
        pdu_type::CANCEL => cancel(server, random),
        _ => of_type(kind, server, random),
    };
    if server.state == State::Running && random.percent(60) {
        let request = repeated_request(server, random);
        return newer(request, server, random);
    }
    let has_row = match kind {
        pdu_type::CANCEL => server.state.answers_cancel(),
        pdu_type::ACK => server.state.has_answer() && !server.call.idempotent,
        _ => server.state.has_answer(),
    };
    if has_row || random.percent(30) {
        return newer(arriving, server, random);
    }
    arriving
}
