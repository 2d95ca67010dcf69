//! The comparison must look at every byte of the memory, also at those that are not lent.

use super::all::check;
use crate::bench::memory::{Buffer, Memory, MOST};
use crate::bench::post::Post;
use crate::records::client::Client;

/// A buffer of the memory: its name, its length, and how it is found.
type Part = (&'static str, usize, fn(&mut Memory) -> &mut Buffer);

const PARTS: [Part; 4] = [
    ("record", MOST.record, |memory| &mut memory.record),
    ("slots", MOST.slots, |memory| &mut memory.slots),
    ("PDU buffer", MOST.pdu, |memory| &mut memory.pdu),
    ("header", MOST.header, |memory| &mut memory.header),
];

/// In a long buffer every so many places are tried, and the last one.
const STEP: usize = 31;

pub fn self_test() -> Result<(), &'static str> {
    let mut post = Post::new(Client::fresh([0; 16], 0));
    let nothing = post.difference(String::new, &[], None);
    check(nothing.is_none(), "memory that does not differ")?;
    for (name, length, part) in PARTS {
        let step = if name == "slots" { STEP } else { 1 };
        for place in (0..length).step_by(step).chain([length - 1]) {
            part(&mut post.other).whole_mut()[place] ^= 1;
            let difference = post.difference(String::new, &[], None);
            let places = difference.map_or(Vec::new(), |difference| difference.places);
            let told: Vec<_> = places.iter().map(|place| (place.0, place.1)).collect();
            check(told == [(name, place)], "every place is compared")?;
        }
    }
    Ok(())
}
