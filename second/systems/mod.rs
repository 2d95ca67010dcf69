//! Whole systems: a client and a server over a bad network, with demand 3 checked.

pub mod demand;
pub mod demand_of_cancels;
pub mod demand_side;
pub mod habits;
pub mod network;
pub mod run;
pub mod step;
pub mod stories;
pub mod stories_of_cancels;
pub mod stories_of_facks;
