//! What a host calls: a function of one side with its arguments, but for the memory that is lent to
//! be written.

use crate::records::client::{ClientSide, Start};
use crate::records::server::{Answer, ServerSide};
use crate::records::side::Side;
use std::fmt::Debug;

/// A side whose functions a host calls.
pub trait Invoked: Side {
    /// The functions that only this side has.
    type OwnInvocation<'a>: Clone + Debug;
    /// What `fresh` takes at this side beside activity and tickets.
    type FreshArgument: Copy + Debug;
}

/// A function of a side, with its arguments.
#[derive(Clone, Debug)]
pub enum Invocation<'a, S: Invoked> {
    Fresh {
        activity: &'a [u8],
        argument: S::FreshArgument,
        tickets: u64,
    },
    Transmit {
        message: &'a [u8],
    },
    Arrive {
        datagram: &'a [u8],
    },
    Timer {
        kind: u8,
        ticket: u64,
    },
    Own(S::OwnInvocation<'a>),
}

/// The memory that a host lends to be written. Each function takes the parts that it names.
pub struct Lent<'a> {
    pub record: &'a mut [u8],
    pub slots: &'a mut [u8],
    pub pdu: &'a mut [u8],
}

/// The functions that only a client has.
#[derive(Clone, Copy, Debug)]
pub enum ClientInvocation<'a> {
    Start(StartArguments<'a>),
    Cancel,
}

/// The arguments of a start.
#[derive(Clone, Copy, Debug)]
pub struct StartArguments<'a> {
    pub idempotent: u8,
    pub object: &'a [u8],
    pub interface: &'a [u8],
    pub version: u32,
    pub operation: u16,
    pub length: u32,
}

impl<'a> StartArguments<'a> {
    pub fn of(start: &'a Start) -> StartArguments<'a> {
        StartArguments {
            idempotent: u8::from(start.call.idempotent),
            object: &start.call.object,
            interface: &start.call.interface,
            version: start.call.version,
            operation: start.call.operation,
            length: start.length,
        }
    }
}

impl Invoked for ClientSide {
    type OwnInvocation<'a> = ClientInvocation<'a>;
    type FreshArgument = ();
}

impl Invoked for ServerSide {
    type OwnInvocation<'a> = Answer;
    /// The boot value.
    type FreshArgument = u32;
}
