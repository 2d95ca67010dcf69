//! Rounds of scenes for a client or a server, and the scenes that both have.

use crate::bench::bench::Bench;
use crate::generate::author::Author;
use crate::generate::made::Made;
use crate::generate::parts::{any_outgoing, no_outgoing};
use crate::generate::random::Random;
use crate::generate::turn::Choices;
use crate::records::record::Record;
use crate::records::rule::Rule;

/// Makes the events of its turn.
pub type Scene<S> = fn(usize, &mut Author<S>);

/// Plays scenes round by round, each as often in a round as is said beside it.
pub fn play_scenes<S: Made>(
    scenes: &[(Scene<S>, usize)],
    bench: Bench,
    seed: u64,
    events: u64,
) -> Bench {
    let mut author = Author::new(bench, seed, events);
    let mut round = 0;
    while !author.has_finished() {
        for (scene, times) in scenes {
            for time in 0..*times {
                scene(round * times + time, &mut author);
            }
        }
        round += 1;
    }
    author.into_bench()
}

/// A sound record of each state by turns, and a few events.
pub fn any_record<S: Made>(turn: usize, author: &mut Author<S>) {
    let state = S::STATES[turn % S::STATES.len()];
    let record = S::sound_record(state, &mut author.random);
    author.set_record(record);
    for _ in 0..author.random.between(2, 5) {
        S::any_event(author);
    }
}

/// In each state by turns a message is out or none is, whether a record may be so or not. The rules
/// are not asked: what they get wrong must show.
pub fn any_message_out<S: Made>(turn: usize, author: &mut Author<S>) {
    let mut choices = Choices::of(turn);
    let state = choices.pick(S::STATES);
    let random = &mut author.random;
    let mut record = S::sound_record(state, random);
    let serial = record.outgoing.serial;
    record.outgoing = match choices.bool() {
        true => any_outgoing(state == S::SENDING, serial, random),
        false => no_outgoing(serial, random),
    };
    author.set_record(record);
    S::any_event(author);
    author.hand_up(0);
}

/// Some events, so many writes and what is handed up, with buffers of wrong lengths.
pub fn wrong_lend<S: Made>(turn: usize, writes: usize, author: &mut Author<S>) {
    let state = S::STATES[turn % S::STATES.len()];
    let mut record = S::sound_record(state, &mut author.random);
    record.incoming.slots[0] = Some(4);
    author.set_record(record);
    author.lend_wrong();
    for _ in 0..3 {
        S::any_event(author);
    }
    for _ in 0..writes {
        author.write();
    }
    author.hand_up(0);
    author.lend_wrong();
    author.hand_up(0);
    author.lend_right();
}

/// A record that breaks one rule, by turns; there is something that would be handed up.
pub fn broken_record<S: Made>(turn: usize, random: &mut Random) -> Record<S> {
    let breaks: Vec<(Rule, S::State)> = S::STATES
        .iter()
        .flat_map(|state| Record::<S>::rules().map(|rule| (rule, *state)))
        .filter(|(rule, state)| Record::<S>::can_break_alone(*rule, *state))
        .collect();
    let (rule, state) = breaks[turn % breaks.len()];
    let mut record = S::sound_record(state, random);
    record.incoming.slots[0] = Some(4);
    record.break_rule(rule, random);
    record
}
