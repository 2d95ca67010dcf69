//! All that can be reached of a side, by name: what is told of both alike.

use crate::coverage::boundary::boundary_names;
use crate::coverage::counts::{pair_names, Group};
use crate::coverage::step::Counted;
use crate::records::record::Record;
use crate::records::side::Words;

/// What can be reached of one side otherwise than of the other.
pub trait Named: Counted {
    /// The names of its events.
    const EVENTS: &'static [&'static str];
    /// The rows of document 01's table that are told without a state.
    const OTHER_ROWS: &'static [&'static str];

    /// The answers that an event can get in a state.
    fn answers(event: &str, state: Self::State) -> Vec<u8>;

    /// The rows of the table that a state may have; @ stands for the state.
    fn rows(state: Self::State) -> Vec<(bool, &'static [&'static str])>;

    /// The states that a state is left for, itself included.
    fn reached(state: Self::State) -> &'static str;

    /// The pairs of grounds that one event can give, but for an arrival.
    fn ground_names() -> Vec<String>;

    /// The grounds of an arrival behind the reader's, each with those that can stand beside it.
    const ARRIVE_PAIRS: &'static [(&'static [u8], &'static [u8])];

    /// What is told once for the side.
    fn detail_names() -> Vec<String>;
}

/// The rows of the table that can be reached.
pub fn row_names<S: Named>() -> Vec<String> {
    let mut names: Vec<String> = S::OTHER_ROWS.iter().map(|row| row.to_string()).collect();
    for state in S::STATES {
        let rows = S::rows(*state).into_iter().filter(|(may_be, _)| *may_be);
        let rows = rows.flat_map(|(_, rows)| rows);
        names.extend(rows.map(|row| row.replace('@', S::state_name(*state))));
    }
    names
}

/// The changes of state that can be reached.
pub fn state_names<S: Named>() -> Vec<String> {
    let mut names = Vec::new();
    for state in S::STATES {
        let from = S::state_name(*state);
        let reached = S::reached(*state).split(' ');
        names.extend(reached.map(|to| format!("{} {from} to {to}", S::WORDS.side)));
    }
    names
}

/// The answers of each event, in each state and in any.
fn answer_names<S: Named>() -> Vec<String> {
    let side = S::WORDS.side;
    let mut names = Vec::new();
    for event in S::EVENTS {
        let mut all = Vec::new();
        for state in S::STATES {
            let answers = S::answers(event, *state);
            let state = S::state_name(*state);
            let in_state = answers.iter();
            names.extend(
                in_state.map(|answer| format!("{side}-{event}-answer-{answer}-in-{state}")),
            );
            all.extend(answers);
        }
        all.sort_unstable();
        all.dedup();
        let all = all.iter();
        names.extend(all.map(|answer| format!("{side}-{event}-answer-{answer}")));
    }
    names
}

/// The rules that can be broken alone, by state and by event.
fn rule_names<S: Named>() -> Vec<String> {
    let mut names = Vec::new();
    for rule in Record::<S>::rules() {
        let prefix = format!("{} rule alone: {}", S::WORDS.side, rule.broken_name());
        let states = S::STATES
            .iter()
            .filter(|state| Record::<S>::can_break_alone(rule, **state));
        names.extend(states.map(|state| format!("{prefix} in {}", S::state_name(*state))));
        let events = S::EVENTS.iter().chain(&["hand up"]);
        names.extend(events.map(|event| format!("{prefix} at {event}")));
    }
    names
}

/// The pairs of grounds that an arrival can give.
fn arrive_pair_names<S: Named>() -> Vec<String> {
    let function = format!("{}-arrive", S::WORDS.side);
    let mut names = pair_names(&function, &[1, 2, 3, 4, 5, 6, 7, 8]);
    for (low, high) in S::ARRIVE_PAIRS {
        for low in *low {
            let pairs = high.iter();
            names.extend(pairs.map(|high| format!("{function}-both-{low}-{high}")));
        }
    }
    names
}

/// What is told of the parts handed up, and of lent lengths that are refused.
pub fn lent_names(words: &Words) -> Vec<String> {
    let names = [
        "hand up: a part",
        "hand up: an empty fragment",
        "hand up: held but not contiguous",
        "hand up: a number above 31",
        "hand up: not held",
        "hand up: a part, but for the broken record",
        "hand up: a part, but for the length lent",
        "hand up: nothing, on several grounds",
        "length refused at transmit: PDU buffer",
        "length refused at transmit: message over 44544",
        "length refused at transmit: message",
        "length refused at transmit: message, record broken too",
        "length refused at arrive: PDU buffer",
        "length refused at arrive: slot buffer",
        "length refused at timer: PDU buffer",
    ];
    names.map(|name| format!("{} {name}", words.side)).into()
}

/// All names of a side, in the order in which they are printed.
pub fn groups<S: Named>() -> Vec<Group> {
    let grounds = [S::ground_names(), arrive_pair_names::<S>()];
    let parts = [
        ("rows", row_names::<S>()),
        ("answers", answer_names::<S>()),
        ("changes of state", state_names::<S>()),
        ("rules broken alone", rule_names::<S>()),
        ("pairs of grounds", grounds.concat()),
        ("details of PDUs, parts and tickets", S::detail_names()),
        ("boundaries", boundary_names(&S::WORDS)),
    ];
    let told = parts.map(|(what, names)| (format!("{} {what}", S::WORDS.side), names));
    told.into()
}
