//! Events of either side that give grounds for a refusal, or for two and three at once.

use crate::generate::arriving::Arriving;
use crate::generate::author::Author;
use crate::generate::made::{Made, LONGEST_LENT};
use crate::generate::random::Random;
use crate::generate::turn::Choices;
use crate::records::record::Record;

/// Lengths of messages that may be lent, and those that may not.
pub const OTHER_LENGTHS: [u32; 7] = [0, 1, 1_391, 1_392, 1_393, 2_784, 44_544];
const OVER_THE_LIMIT: [u32; 4] = [44_545, 45_936, 65_536, 65_537];

/// Messages that no start or reply may bring.
const TOO_LONG: [u32; 5] = [44_545, 44_546, 65_536, 356_353, u32::MAX];

/// Every second record is in any state, the others in the one given.
pub fn any_or<S: Made>(state: S::State, choices: &mut Choices) -> S::State {
    match choices.bool() {
        true => choices.pick(S::STATES),
        false => state,
    }
}

/// A PDU arrives with the defects that can be put into it at either side and into the record. The
/// side puts in its own behind those of the record and the activity.
pub fn arrive_with_defects<S: Made>(
    mut record: Record<S>,
    mut arriving: Arriving,
    defects: &[u8],
    put_own: impl FnOnce(&mut Arriving, &mut Random),
    author: &mut Author<S>,
) {
    let random = &mut author.random;
    if defects.contains(&2) {
        record.break_any_rule(random);
    }
    if defects.contains(&9) {
        arriving.header.activity[random.between(0, 15)] ^= 1 << random.between(0, 7);
    }
    put_own(&mut arriving, random);
    let datagram = arriving.damaged(defects, random);
    author.set_record(record);
    if defects.contains(&1) {
        author.lend_wrong();
    }
    author.arrive_datagram(&datagram);
    author.lend_right();
}

/// An event meets the record, and a PDU buffer that may have a wrong length.
pub fn event_with_lend<S: Made>(
    record: Record<S>,
    lends_wrong: bool,
    author: &mut Author<S>,
    event: impl FnOnce(&mut Author<S>),
) {
    author.set_record(record);
    if lends_wrong {
        author.lend_wrong_pdu();
    }
    event(author);
    author.lend_right();
}

/// Sets the record, which may break a rule. Gives the length of the message for it, which may be
/// too long.
pub fn set_with_length<S: Made>(
    mut record: Record<S>,
    length: u32,
    turn: usize,
    choices: &mut Choices,
    author: &mut Author<S>,
) -> u32 {
    let is_too_long = choices.bool();
    if choices.bool() {
        record.break_any_rule(&mut author.random);
    }
    author.set_record(record);
    match is_too_long {
        true => TOO_LONG[turn % TOO_LONG.len()],
        false => length,
    }
}

/// Every second record can transmit, and these mostly their last fragment.
pub fn defects_at_transmit<S: Made>(turn: usize, author: &mut Author<S>) {
    let mut choices = Choices::of(turn);
    let state = any_or::<S>(S::SENDING, &mut choices);
    let kind_of_length = choices.below(4);
    let lends_wrong = choices.bool();
    let is_broken = choices.bool();
    let random = &mut author.random;
    let mut record = S::sound_record(state, random);
    if random.percent(50) {
        record.set_counter(u64::MAX);
    }
    if is_broken {
        record.break_any_rule(random);
    }
    let right = record.outgoing.length.min(LONGEST_LENT);
    let length = match kind_of_length {
        0 => right,
        1 => random.pick(&[right.saturating_sub(1), (right + 1).min(LONGEST_LENT)]),
        2 => OTHER_LENGTHS[turn / 8 % OTHER_LENGTHS.len()],
        _ => random.pick(&OVER_THE_LIMIT),
    };
    let seed = random.u8();
    event_with_lend(record, lends_wrong, author, |author| {
        author.transmit_of::<S>(length, seed);
    });
}

/// A timer that may be late, not armed or without a ticket left. The record may be changed before
/// it breaks a rule.
pub fn timer_with_defects<S: Made>(
    (state, kind): (S::State, S::TimerKind),
    choices: &mut Choices,
    change: impl FnOnce(&mut Record<S>, &mut Random),
    author: &mut Author<S>,
) {
    let random = &mut author.random;
    let mut record = S::sound_record(state, random);
    let lends_wrong = choices.bool();
    let is_late = choices.bool();
    let counter = choices.pick(&[record.tickets.counter, u64::MAX - 1, u64::MAX]);
    record.set_counter(counter);
    if random.percent(15) {
        record.disarm();
    }
    change(&mut record, random);
    if choices.bool() {
        record.break_any_rule(random);
    }
    event_with_lend(record, lends_wrong, author, |author| match is_late {
        true => author.late_timer(kind),
        false => author.timer(kind),
    });
}
