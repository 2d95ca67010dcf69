//! What is played: so many events of each kind.

use crate::bench::bench::Bench;
use crate::bench::library::Library;
use crate::generate::{bytes, client, codec, server};
use crate::records::client::ClientSide;
use crate::records::server::ServerSide;
use crate::systems;

/// Makes events of one kind from a seed.
type Play = fn(Bench, u64, u64) -> Bench;

/// The kinds, with how many of a hundred events are of each. The last one gets what is left.
const KINDS: [(Play, u64); 6] = [
    (codec::play, 10),
    (client::events::play, 22),
    (server::events::play, 24),
    (bytes::scenes::play::<ClientSide>, 10),
    (bytes::scenes::play::<ServerSide>, 10),
    (systems::run::play, 24),
];

/// So many events, all made from the seed.
pub fn play(library: Box<dyn Library>, seed: u64, events: u64) -> Bench {
    let mut bench = Bench::new(library);
    let mut left = events;
    for (number, (play, share)) in (1u64..).zip(KINDS) {
        let is_last = number as usize == KINDS.len();
        let count = match is_last {
            true => left,
            false => left.min(events / 100 * share),
        };
        bench = play(bench, seed.wrapping_mul(8).wrapping_add(number), count);
        left -= count;
    }
    bench
}
