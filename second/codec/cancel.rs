//! The bodies of cancel and cancel_ack (request 2): words of four bytes, the first of which is the
//! version.

use crate::codec::pdu::ByteOrder;

/// The version of both bodies.
const VERSION: u32 = 0;

/// The words of a body of just so many.
fn words<const COUNT: usize>(body: &[u8], order: ByteOrder) -> Option<[u32; COUNT]> {
    let (words, []) = body.as_chunks::<4>() else {
        return None;
    };
    let words: [[u8; 4]; COUNT] = words.try_into().ok()?;
    Some(words.map(|word| order.u32(word)))
}

/// The number of a cancel; none where its body is malformed.
pub fn number(body: &[u8], order: ByteOrder) -> Option<u32> {
    match words(body, order)? {
        [VERSION, number] => Some(number),
        _ => None,
    }
}

/// The number of a cancel_ack; none where its body is malformed. Whether the server accepts cancels
/// is told by 0 or 1, and makes no difference.
pub fn acknowledged_number(body: &[u8], order: ByteOrder) -> Option<u32> {
    match words(body, order)? {
        [VERSION, number, 0 | 1] => Some(number),
        _ => None,
    }
}

/// The body of a cancel as it is written.
pub fn body(number: u32) -> Vec<u8> {
    [VERSION, number].map(u32::to_le_bytes).concat()
}

/// The body of a cancel_ack as it is written.
pub fn acknowledging_body(number: u32, accepts: bool) -> Vec<u8> {
    let words = [VERSION, number, u32::from(accepts)];
    words.map(u32::to_le_bytes).concat()
}
