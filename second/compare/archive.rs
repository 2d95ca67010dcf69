//! The proved library, called as a host calls it: each slice becomes its address and, beside it, its
//! length.

use super::exports::{
    morphelai_client_arrive, morphelai_client_cancel, morphelai_client_fresh,
    morphelai_client_part, morphelai_client_start, morphelai_client_timer,
    morphelai_client_transmit, morphelai_read, morphelai_record_size, morphelai_server_arrive,
    morphelai_server_fault, morphelai_server_fresh, morphelai_server_part, morphelai_server_reply,
    morphelai_server_timer, morphelai_server_transmit, morphelai_write,
};
use crate::bench::library::Library;
use crate::door::invocation::{ClientInvocation, Invocation, Lent, StartArguments};
use crate::records::client::ClientSide;
use crate::records::server::{Answer, ServerSide};

type Transmit = unsafe extern "C" fn(*mut u8, usize, *const u8, usize, *mut u8, usize) -> u64;
type Arrive =
    unsafe extern "C" fn(*mut u8, usize, *const u8, usize, *mut u8, usize, *mut u8, usize) -> u64;
type Timer = unsafe extern "C" fn(*mut u8, usize, u8, u64, *mut u8, usize) -> u64;

/// The library that this program is linked with.
pub struct Archive;

/// The size of a record as the library tells it.
pub fn record_size() -> usize {
    unsafe { morphelai_record_size() }
}

/// Where bytes begin that are only read; an empty slice has no address.
fn at(bytes: &[u8]) -> *const u8 {
    match bytes {
        [] => std::ptr::null(),
        _ => bytes.as_ptr(),
    }
}

/// Where lent bytes begin; an empty slice has no address.
fn lent_at(bytes: &mut [u8]) -> *mut u8 {
    match bytes {
        [] => std::ptr::null_mut(),
        _ => bytes.as_mut_ptr(),
    }
}

impl Library for Archive {
    fn client(&mut self, invocation: &Invocation<ClientSide>, lent: Lent) -> u64 {
        let Lent { record, slots, pdu } = lent;
        match invocation {
            Invocation::Fresh {
                activity, tickets, ..
            } => client_fresh(record, activity, *tickets),
            Invocation::Transmit { message } => {
                transmit(morphelai_client_transmit, record, message, pdu)
            }
            Invocation::Arrive { datagram } => {
                arrive(morphelai_client_arrive, record, datagram, slots, pdu)
            }
            Invocation::Timer { kind, ticket } => {
                timer(morphelai_client_timer, record, (*kind, *ticket), pdu)
            }
            Invocation::Own(ClientInvocation::Start(start)) => client_start(record, start),
            Invocation::Own(ClientInvocation::Cancel) => client_cancel(record, pdu),
        }
    }

    fn server(&mut self, invocation: &Invocation<ServerSide>, lent: Lent) -> u64 {
        let Lent { record, slots, pdu } = lent;
        match invocation {
            Invocation::Fresh {
                activity,
                argument: boot,
                tickets,
            } => server_fresh(record, activity, *boot, *tickets),
            Invocation::Transmit { message } => {
                transmit(morphelai_server_transmit, record, message, pdu)
            }
            Invocation::Arrive { datagram } => {
                arrive(morphelai_server_arrive, record, datagram, slots, pdu)
            }
            Invocation::Timer { kind, ticket } => {
                timer(morphelai_server_timer, record, (*kind, *ticket), pdu)
            }
            Invocation::Own(Answer::Reply { length }) => server_reply(record, *length),
            Invocation::Own(Answer::Fault { status }) => server_fault(record, *status, pdu),
        }
    }

    fn client_part(&mut self, number: u16, record: &[u8], slots: &[u8]) -> u64 {
        unsafe { morphelai_client_part(at(record), record.len(), number, at(slots), slots.len()) }
    }

    fn server_part(&mut self, number: u16, record: &[u8], slots: &[u8]) -> u64 {
        unsafe { morphelai_server_part(at(record), record.len(), number, at(slots), slots.len()) }
    }

    fn read(&mut self, datagram: &[u8], header: &mut [u8]) -> u64 {
        unsafe { morphelai_read(at(datagram), datagram.len(), lent_at(header), header.len()) }
    }

    fn write(&mut self, header: &[u8], body: &[u8], pdu: &mut [u8]) -> u64 {
        unsafe {
            morphelai_write(
                at(header),
                header.len(),
                at(body),
                body.len(),
                lent_at(pdu),
                pdu.len(),
            )
        }
    }
}

fn transmit(function: Transmit, record: &mut [u8], message: &[u8], pdu: &mut [u8]) -> u64 {
    unsafe {
        function(
            lent_at(record),
            record.len(),
            at(message),
            message.len(),
            lent_at(pdu),
            pdu.len(),
        )
    }
}

fn arrive(
    function: Arrive,
    record: &mut [u8],
    datagram: &[u8],
    slots: &mut [u8],
    pdu: &mut [u8],
) -> u64 {
    unsafe {
        function(
            lent_at(record),
            record.len(),
            at(datagram),
            datagram.len(),
            lent_at(slots),
            slots.len(),
            lent_at(pdu),
            pdu.len(),
        )
    }
}

fn timer(function: Timer, record: &mut [u8], (kind, ticket): (u8, u64), pdu: &mut [u8]) -> u64 {
    unsafe {
        function(
            lent_at(record),
            record.len(),
            kind,
            ticket,
            lent_at(pdu),
            pdu.len(),
        )
    }
}

fn client_fresh(record: &mut [u8], activity: &[u8], tickets: u64) -> u64 {
    unsafe {
        morphelai_client_fresh(
            lent_at(record),
            record.len(),
            at(activity),
            activity.len(),
            tickets,
        )
    }
}

fn server_fresh(record: &mut [u8], activity: &[u8], boot: u32, tickets: u64) -> u64 {
    unsafe {
        morphelai_server_fresh(
            lent_at(record),
            record.len(),
            at(activity),
            activity.len(),
            boot,
            tickets,
        )
    }
}

fn server_reply(record: &mut [u8], length: u32) -> u64 {
    unsafe { morphelai_server_reply(lent_at(record), record.len(), length) }
}

fn server_fault(record: &mut [u8], status: u32, pdu: &mut [u8]) -> u64 {
    unsafe {
        morphelai_server_fault(
            lent_at(record),
            record.len(),
            status,
            lent_at(pdu),
            pdu.len(),
        )
    }
}

fn client_cancel(record: &mut [u8], pdu: &mut [u8]) -> u64 {
    unsafe { morphelai_client_cancel(lent_at(record), record.len(), lent_at(pdu), pdu.len()) }
}

fn client_start(record: &mut [u8], start: &StartArguments) -> u64 {
    unsafe {
        morphelai_client_start(
            lent_at(record),
            record.len(),
            start.idempotent,
            at(start.object),
            start.object.len(),
            at(start.interface),
            start.interface.len(),
            start.version,
            start.operation,
            start.length,
        )
    }
}
