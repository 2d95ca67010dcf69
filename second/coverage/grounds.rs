//! All grounds that an arrival gives, also those that the reader hides.

use crate::codec::pdu::{offset, ByteOrder, BODY_LIMIT, HEADER_LENGTH, HIGHEST_TYPE, VERSION};
use crate::coverage::codec::read_grounds;
use crate::generate::defect::Draft;

/// What the reader finds wrong hides the grounds behind it. They are looked for in the datagram as
/// it would be without that; where the byte order is not known, those that hold in both.
pub fn arrive_grounds(datagram: &[u8], judged: impl Fn(&[u8]) -> Vec<u8>) -> Vec<u8> {
    let mut numbers = read_grounds(datagram);
    if numbers.is_empty() {
        numbers = judged(datagram);
    } else if datagram.len() < HEADER_LENGTH {
        numbers.extend(judged(datagram));
    } else {
        let in_little = judged(&repaired(datagram, ByteOrder::Little));
        let in_big = judged(&repaired(datagram, ByteOrder::Big));
        numbers.extend(match &datagram[offset::REPRESENTATION..][..3] {
            [16, 0, 0] => in_little,
            [0, 0, 0] => in_big,
            _ => in_little
                .into_iter()
                .filter(|number| in_big.contains(number))
                .collect(),
        });
    }
    if numbers.contains(&5) {
        // The type is not known; only activity and call number are.
        numbers.retain(|number| *number < 10 || *number == 13);
    }
    numbers.sort_unstable();
    numbers.dedup();
    numbers
}

/// A datagram of at least 80 bytes without what the reader finds wrong.
fn repaired(datagram: &[u8], order: ByteOrder) -> Vec<u8> {
    let length = datagram.len().min(HEADER_LENGTH + BODY_LIMIT);
    let mut draft = Draft {
        order,
        bytes: datagram[..length].to_vec(),
    };
    draft.put(offset::VERSION, &[VERSION]);
    draft.put(offset::TYPE, &[datagram[offset::TYPE].min(HIGHEST_TYPE)]);
    draft.put(offset::REPRESENTATION, &order.representation());
    draft.put(offset::AUTHENTICATION, &[0]);
    draft.put_body_length((length - HEADER_LENGTH) as u16);
    draft.bytes
}
