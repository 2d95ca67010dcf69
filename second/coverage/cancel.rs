//! What is reached of cancels and cancel_acks, by name: their bodies, and what is judged behind them.

use crate::codec::pdu::{offset, pdu_type, ByteOrder, Pdu, HEADER_LENGTH};
use crate::codec::{body, cancel};
use crate::coverage::codec::order_name;
use crate::coverage::counts::Counts;
use crate::coverage::side::type_name;
use crate::generate::cancel::{wrong_lengths, THIRD_WORDS};

/// The length of a well formed body of the type.
fn right_length(pdu_type: u8) -> usize {
    match pdu_type {
        pdu_type::CANCEL => 8,
        _ => 12,
    }
}

/// What is wrong with a malformed body; its version and its third word are told byte for byte.
fn malformed_name(pdu: &Pdu) -> String {
    let body = pdu.body;
    if body.len() != right_length(pdu.header.pdu_type) {
        return format!("{} bytes", body.len());
    }
    match body[..4].iter().position(|byte| *byte != 0) {
        Some(place) => format!("byte {place} of the version"),
        None => {
            let word = [body[8], body[9], body[10], body[11]];
            format!("the third word {}", pdu.order.u32(word))
        }
    }
}

/// Counts in which way a body is malformed that was refused for it.
pub fn count_malformed(side: &str, pdu: &Pdu, counts: &mut Counts) {
    let (kind, order) = (type_name(pdu.header.pdu_type), order_name(pdu.order));
    let what = malformed_name(pdu);
    counts.add(format_args!("{side} {kind} malformed, {order}: {what}"));
}

/// All ways in which a body of the type can be malformed.
pub fn malformed_names(side: &str, pdu_type: u8) -> Vec<String> {
    let mut ways: Vec<String> = wrong_lengths(pdu_type)
        .iter()
        .map(|length| format!("{length} bytes"))
        .collect();
    ways.extend((0..4).map(|place| format!("byte {place} of the version")));
    if pdu_type == pdu_type::CANCEL_ACK {
        ways.extend(THIRD_WORDS.map(|word| format!("the third word {word}")));
    }
    let kind = type_name(pdu_type);
    let mut names = Vec::new();
    for order in [ByteOrder::Little, ByteOrder::Big].map(order_name) {
        let of_order = ways.iter();
        names.extend(of_order.map(|way| format!("{side} {kind} malformed, {order}: {way}")));
    }
    names
}

/// Whether a body is as its type wants it.
pub fn form_name(pdu: &Pdu) -> &'static str {
    match body::is_malformed(pdu) {
        true => "malformed",
        false => "well formed",
    }
}

/// A cancel number that has a name of its own, or any.
fn number_name(number: u32) -> &'static str {
    match number {
        0 => "0",
        1 => "1",
        u32::MAX => "4294967295",
        _ => "another",
    }
}

/// Counts the number of a cancel or cancel_ack that is sent.
pub fn count_sent(side: &str, pdu: &[u8], counts: &mut Counts) {
    let kind = type_name(pdu[offset::TYPE]);
    if let Some(number) = cancel::number(&pdu[HEADER_LENGTH..][..8], ByteOrder::Little) {
        let number = number_name(number);
        counts.add(format_args!("{side} sends {kind}: number {number}"));
    }
}

/// All numbers that are sent; a cancel has none below 1.
pub fn sent_names(side: &str, pdu_type: u8) -> Vec<String> {
    let mut numbers = vec!["1", "4294967295", "another"];
    if pdu_type == pdu_type::CANCEL_ACK {
        numbers.push("0");
    }
    let kind = type_name(pdu_type);
    let numbers = numbers.iter();
    numbers
        .map(|number| format!("{side} sends {kind}: number {number}"))
        .collect()
}
