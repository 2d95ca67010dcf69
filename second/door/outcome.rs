//! The one number that a call gives back.

use crate::machines::effect::{Effect, Notice};
use crate::machines::refusal::Refusal;

/// The kind of a notice and its value.
fn notice_numbers(notice: Notice) -> (u64, u64) {
    match notice {
        Notice::Last => (1, 0),
        Notice::Count(count) => (2, u64::from(count)),
        Notice::Fault(status) => (3, u64::from(status)),
        Notice::Reject(status) => (4, u64::from(status)),
        Notice::Cause(cause) => (5, u64::from(cause)),
        Notice::Dispatch => (6, 0),
        Notice::Cancel => (7, 0),
    }
}

/// Answer, kind of the notice, length of the PDU and value of the notice, from the low bits up.
pub fn outcome(result: &Result<Effect, Refusal>) -> u64 {
    let effect = match result {
        Ok(effect) => effect,
        Err(refusal) => return u64::from(refusal.number()),
    };
    let (kind, value) = effect.notice.map_or((0, 0), notice_numbers);
    let pdu_length = effect.pdu_length.unwrap_or(0) as u64;
    kind << 8 | pdu_length << 16 | value << 32
}
