//! Cases that both sides have: what is transmitted, and what is refused before a datagram's type is looked at.

use crate::case::{Case, DONE};
use crate::event::Event;
use crate::machine::{changed, unreadable, Machine};
use morphelai::{PduType, FRAGMENTS, MESSAGE_SIZE, SLOTS_SIZE};

/// Transmits of a message that is empty or as long as can be. `begun` gives a machine that has begun a message of a
/// length, with a ticket counter that started from there.
pub fn transmits(sent: PduType, begun: impl Fn(u64, usize) -> Machine) -> Vec<Case> {
    let (empty, several) = (begun(0, 0), begun(0, MESSAGE_SIZE));
    let last = (1..FRAGMENTS).fold(several.clone(), |machine, _| machine.after(Event::Transmit(MESSAGE_SIZE)));
    let all_sent = empty.clone().after(Event::Transmit(0));
    let transmit = || Event::Transmit(MESSAGE_SIZE);
    let sending = DONE.sending(sent);
    let mut cases = vec![
        empty.case("transmit-empty", Event::Transmit(0), sending),
        several.case("transmit-first", transmit(), sending),
        last.case("transmit-last", transmit(), sending),
        several.refused("transmit-message", Event::Transmit(MESSAGE_SIZE - 1), 1),
        all_sent.refused("transmit", Event::Transmit(0), 15),
        begun(u64::MAX, 0).refused("transmit", Event::Transmit(0), 20),
    ];
    cases.extend(several.misused("transmit", transmit));
    cases
}

/// Arrivals of a PDU that has a body, refused with 1 to 10, at a machine whose first timer is armed. The other type
/// is not for this side.
pub fn refused_at_once(machine: &Machine, name: &str, pdu: &[u8], other_type: u8) -> Vec<Case> {
    let short_slots = Event::Arrive { datagram: pdu.to_vec(), slots_length: SLOTS_SIZE - 1 };
    // The timer's ticket is above the counter.
    let unsound = machine.clone().changed(47, u8::MAX);
    let mut cases = Vec::from(machine.misused(name, || Event::arrive(pdu)));
    cases.push(machine.refused(&format!("{name}-slots"), short_slots, 1));
    cases.push(unsound.refused(&format!("{name}-rules"), Event::arrive(pdu), 2));
    let others = [(changed(pdu, 40, 0), 9), (changed(pdu, 1, other_type), 10)];
    for (datagram, answer) in unreadable(pdu).into_iter().chain(others) {
        cases.push(machine.refused(name, Event::arrive(&datagram), answer));
    }
    cases
}
