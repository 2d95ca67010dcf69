//! Fragments made to fit what a record holds or to miss it in one point.

use crate::codec::pdu::flags1;
use crate::generate::arriving::{IMPOSSIBLE_NUMBERS, LAST_OF_SEVERAL, ONE_OF_SEVERAL, WHOLE};
use crate::generate::random::Random;
use crate::records::incoming::Incoming;

/// A fragment number and the fragment bits beside it.
pub type Place = (u16, u8);

/// The contradictions that `contradicting` knows.
pub const CONTRADICTIONS: usize = 3;

/// A fragment that is not held.
pub fn lacking(incoming: &Incoming, random: &mut Random) -> Place {
    let highest = incoming.last.unwrap_or(31).min(31);
    let missing: Vec<u8> = (0..=highest)
        .filter(|number| !incoming.holds(u16::from(*number)))
        .collect();
    let number = match random.between(0, 9) {
        _ if missing.is_empty() => 0,
        0..=6 => missing[0],
        7 => missing[missing.len() - 1],
        _ => random.pick(&missing),
    };
    let is_above_all = incoming.held_fragments().all(|(held, _)| held < number);
    let is_last = match incoming.last {
        Some(last) => last == number && random.percent(85),
        None => is_above_all && random.percent(40),
    };
    let is_alone = number == 0 && is_last && random.percent(70);
    let fragment_bits = match (is_alone, is_last) {
        (true, _) => random.pick(&[WHOLE, WHOLE, flags1::LAST_FRAGMENT]),
        (false, true) => LAST_OF_SEVERAL,
        (false, false) => ONE_OF_SEVERAL,
    };
    (u16::from(number), fragment_bits)
}

/// The number of a fragment that is held, or 0 if none is.
fn held_number(incoming: &Incoming, random: &mut Random) -> u16 {
    let held: Vec<u16> = incoming
        .held_fragments()
        .map(|(number, _)| u16::from(number))
        .collect();
    match random.between(0, 9) {
        _ if held.is_empty() => 0,
        0..=3 => held[0],
        _ => random.pick(&held),
    }
}

/// A fragment that is held, if one is, with any bits that its number can have.
pub fn repeated(incoming: &Incoming, random: &mut Random) -> Place {
    let number = held_number(incoming, random);
    let bits = match number {
        0 => random.pick(&[ONE_OF_SEVERAL, LAST_OF_SEVERAL, WHOLE]),
        _ => random.pick(&[ONE_OF_SEVERAL, LAST_OF_SEVERAL]),
    };
    (number, bits)
}

/// A fragment that is held, if one is, as its sender sends it once more.
pub fn sent_again(incoming: &Incoming, random: &mut Random) -> Place {
    let number = held_number(incoming, random);
    let bits = match incoming.last.map(u16::from) {
        Some(0) if number == 0 => random.pick(&[WHOLE, LAST_OF_SEVERAL]),
        Some(last) if number == last => random.pick(&[ONE_OF_SEVERAL, LAST_OF_SEVERAL]),
        _ => ONE_OF_SEVERAL,
    };
    (number, bits)
}

/// A number that no fragment has, or one that needs the fragment bit.
pub fn impossible(way: usize, incoming: &Incoming, random: &mut Random) -> Place {
    if let Some(number) = IMPOSSIBLE_NUMBERS.get(way) {
        let bits = random.pick(&[WHOLE, ONE_OF_SEVERAL, LAST_OF_SEVERAL]);
        return (*number, bits);
    }
    let (number, bits) = repeated(incoming, random);
    let number = match way - IMPOSSIBLE_NUMBERS.len() {
        0 => 1,
        1 => 31,
        _ => number.max(2),
    };
    (number, bits & !flags1::FRAGMENT)
}

/// A fragment above the known last, a last one below the known last, or a last one below one held.
/// Which of them there are depends on what is held.
pub fn contradicting(way: usize, incoming: &Incoming, random: &mut Random) -> Option<Place> {
    let below = |limit: u8, random: &mut Random| match limit {
        0 => 0,
        _ => random.between(0, usize::from(limit) - 1) as u16,
    };
    let highest = incoming.held_fragments().map(|(number, _)| number).max();
    match (way, incoming.last, highest) {
        (0, Some(last @ 0..=30), _) => {
            let number = random.between(usize::from(last) + 1, 31) as u16;
            let bits = random.pick(&[ONE_OF_SEVERAL, LAST_OF_SEVERAL]);
            Some((number, bits))
        }
        (1, Some(last), _) => Some((below(last, random), LAST_OF_SEVERAL)),
        (2, _, Some(held)) => {
            let number = below(held, random);
            let bits = match number {
                0 => random.pick(&[WHOLE, LAST_OF_SEVERAL]),
                _ => LAST_OF_SEVERAL,
            };
            Some((number, bits))
        }
        _ => None,
    }
}

/// How many edges `at_an_edge` knows.
pub const EDGES: usize = 8;

/// What is held, and a fragment of several at an edge of what is put and what contradicts it.
pub fn at_an_edge(edge: usize, random: &mut Random) -> (Incoming, Place) {
    let bits = random.pick(&[ONE_OF_SEVERAL, LAST_OF_SEVERAL]);
    let middle = random.between(1, 30);
    let known_last = Some(middle as u8);
    let (last, held, number, bits) = match edge {
        // Above the known last.
        0 => (known_last, 0..0, middle + 1, bits),
        // Another known last.
        1 => (known_last, 0..0, middle - 1, LAST_OF_SEVERAL),
        // A last one below one held.
        2 => (None, middle..middle + 1, middle - 1, LAST_OF_SEVERAL),
        // At the known last, not marked last.
        3 => (known_last, 0..0, middle, ONE_OF_SEVERAL),
        // All below the known last are held then, but not itself.
        4 => (known_last, 0..middle - 1, middle - 1, ONE_OF_SEVERAL),
        // The only one that is missing.
        5 => (known_last, 1..middle + 1, 0, ONE_OF_SEVERAL),
        // The highest number, which is not marked last.
        6 => (None, 0..0, 31, ONE_OF_SEVERAL),
        _ => (None, 0..0, 31, LAST_OF_SEVERAL),
    };
    let mut incoming = Incoming::empty();
    incoming.last = last;
    incoming.slots[held].fill(Some(3));
    (incoming, (number as u16, bits))
}
