//! The bench rows of document 01 at the server.

use crate::machines::event::Event;
use crate::machines::refusal::{answer, Refusal};
use crate::records::server::{ServerSide, State};
use crate::self_test::all::check;
use crate::self_test::server_stage::{fault, replied, reply, running, timer, transmit};
use crate::self_test::side::{changed_datagram, datagram_rows};
use crate::self_test::stage::Stage;

pub fn self_test() -> Result<(), &'static str> {
    read_rows()?;
    length_rows()?;
    ticket_rows()
}

/// What the reader refuses, the server refuses with the same number; a good datagram it takes,
/// unless there is something wrong for it.
fn read_rows() -> Result<(), &'static str> {
    let arrives = |datagram: &[u8]| {
        let mut stage = Stage::new();
        answer(&stage.event::<ServerSide>(&Event::Arrive { datagram }))
    };
    for (datagram, number, name) in datagram_rows() {
        check(arrives(&datagram) == number, name)?;
    }
    check(
        arrives(&changed_datagram(40, 1)) == 9,
        "another activity at the server",
    )?;
    check(
        arrives(&changed_datagram(1, 2)) == 10,
        "a response at the server",
    )?;
    check(
        arrives(&changed_datagram(2, 64)) == 11,
        "broadcast at the server",
    )?;
    check(
        arrives(&changed_datagram(77, 1)) == 12,
        "number 1 without the bit",
    )
}

fn length_rows() -> Result<(), &'static str> {
    let fragments = [0, 1_392, 1_393, 44_544].map(|length| {
        let mut stage = running(false);
        let outcome = reply(&mut stage, length);
        (answer(&outcome), stage.server.outgoing.fragments)
    });
    check(
        fragments == [(0, 1), (0, 1), (0, 2), (0, 32)],
        "fragment counts of replies",
    )?;
    let over = reply(&mut running(false), 44_545);
    check(over == Err(Refusal::LentBuffer), "a reply of 44545 bytes")?;
    let mut stage = running(false);
    stage.server.outgoing.serial = 65_535;
    let sent = reply(&mut stage, 1).and_then(|_| transmit(&mut stage));
    check(
        sent.is_ok() && stage.server.outgoing.serial == 0,
        "serial 65535, next 0 at the server",
    )
}

fn ticket_rows() -> Result<(), &'static str> {
    let mut stage = replied(false, 8);
    stage.server.tickets.counter = 7;
    stage.server.own.resend = Some(7);
    let late = timer(&mut stage, 6);
    check(
        late == Err(Refusal::LateTimer),
        "ticket 7 armed, event 6 at the server",
    )?;
    check(
        timer(&mut stage, 7).is_ok(),
        "ticket 7 armed, event 7 at the server",
    )?;
    stage.server.tickets.counter = u64::MAX;
    let last = transmit(&mut stage);
    check(last == Err(Refusal::NoTicket), "a reply without a ticket")?;
    let mut stage = running(false);
    stage.server.tickets.counter = u64::MAX;
    let failed = fault(&mut stage);
    check(failed == Err(Refusal::NoTicket), "a fault without a ticket")?;
    let mut stage = running(true);
    stage.server.tickets.counter = u64::MAX;
    check(
        fault(&mut stage).is_ok() && stage.server.state == State::IdleRepeatable,
        "a fault that needs no ticket",
    )
}
