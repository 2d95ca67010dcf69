//! Machines that go wrong in one point of the cancels. The comparison must find each of them, among
//! the events of its side and in systems alike.

use crate::bench::bench::Bench;
use crate::generate::{client, server};
use crate::self_test::all::check;
use crate::self_test::mistaken::Mistaken;
use crate::self_test::mistaken_clients::CLIENTS;
use crate::self_test::mistaken_servers::SERVERS;
use crate::systems;

const EVENTS: u64 = 5_000;
const SYSTEM_EVENTS: u64 = 6_000;

pub fn self_test() -> Result<(), &'static str> {
    no_mistake()?;
    for (client, shows_in_system, name) in CLIENTS {
        let mistaken = || Mistaken {
            client,
            server: |_| {},
        };
        let bench = client::events::play(bench(mistaken()), 1, EVENTS);
        check(bench.findings.differences > 0, name)?;
        check_in_system(mistaken(), shows_in_system, name)?;
    }
    for (server, shows_in_system, name) in SERVERS {
        let mistaken = || Mistaken {
            client: |_| {},
            server,
        };
        let bench = server::events::play(bench(mistaken()), 1, EVENTS);
        check(bench.findings.differences > 0, name)?;
        check_in_system(mistaken(), shows_in_system, name)?;
    }
    Ok(())
}

/// Where there is no mistake, none is found.
fn no_mistake() -> Result<(), &'static str> {
    let right = Mistaken {
        client: |_| {},
        server: |_| {},
    };
    let bench = client::events::play(bench(right), 1, EVENTS);
    let bench = server::events::play(bench, 1, EVENTS);
    let bench = systems::run::play(bench, 1, SYSTEM_EVENTS);
    check(
        bench.findings.differences == 0,
        "machines without a mistake",
    )
}

fn bench(mistaken: Mistaken) -> Bench {
    Bench::new(Box::new(mistaken))
}

fn check_in_system(
    mistaken: Mistaken,
    shows: bool,
    name: &'static str,
) -> Result<(), &'static str> {
    if shows {
        let bench = systems::run::play(bench(mistaken), 1, SYSTEM_EVENTS);
        check(bench.findings.differences > 0, name)?;
    }
    Ok(())
}
