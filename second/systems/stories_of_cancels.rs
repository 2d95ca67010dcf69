//! Stories of calls that are cancelled.

use super::stories::Telling::{
    self, Cancel, CancelTimer, ClientTransmit, Fault, Reply, ServerTransmit, Start, ToClient,
    ToServer, Wait,
};

/// Two cancels before all of the request is sent, and one while it runs. The first cancel_ack comes
/// too late, the others in time; the call then completes, and no timer can act any more.
pub const ACKNOWLEDGED: [Telling; 22] = [
    Start(false, 2_000),
    ClientTransmit,
    ToServer(0),
    Cancel,
    Cancel,
    ToServer(1),
    ToServer(2),
    ToClient(1),
    ToClient(2),
    ToClient(2),
    ClientTransmit,
    ToServer(3),
    ToServer(2),
    Cancel,
    ToServer(4),
    ToClient(4),
    ToClient(5),
    Cancel,
    Reply(1),
    ServerTransmit,
    ToClient(6),
    CancelTimer,
];

/// A cancel overtakes its request, so that the server has no row for it. The timer ends the call in
/// the client, and what comes behind is of an old call, or no row takes it.
pub const NOT_HEARD: [Telling; 14] = [
    Start(false, 1),
    ClientTransmit,
    Cancel,
    ToServer(1),
    ToServer(0),
    CancelTimer,
    CancelTimer,
    Wait,
    ToServer(1),
    ToClient(0),
    Cancel,
    Start(false, 1),
    ToClient(0),
    Cancel,
];

/// A cancel is noticed in each run of an idempotent call, since a begin forgets the number seen;
/// within a run only a higher one is. A third run notices a cancel that is sent only then.
pub const NOTICED_AGAIN: [Telling; 20] = [
    Start(true, 1),
    ClientTransmit,
    Cancel,
    Cancel,
    ToServer(0),
    ToServer(1),
    ToServer(2),
    ToServer(1),
    Reply(1),
    ServerTransmit,
    ToServer(2),
    ToServer(0),
    ToServer(1),
    ToServer(2),
    ToClient(4),
    Reply(1),
    ServerTransmit,
    ToServer(0),
    Cancel,
    ToServer(3),
];

/// The server hears a cancel twice and heeds it: it answers with a fault, which is late. A cancel
/// that comes meanwhile is still answered.
pub const HEEDED: [Telling; 12] = [
    Start(false, 1),
    ClientTransmit,
    ToServer(0),
    Cancel,
    ToServer(1),
    ToServer(1),
    Fault,
    Cancel,
    ToServer(2),
    ToClient(3),
    ToClient(2),
    CancelTimer,
];

/// The last ticket is that of the first cancel, so that the client can end its call only by this.
pub const LAST_TICKET: [Telling; 6] = [
    Start(false, 1),
    Cancel,
    Cancel,
    ClientTransmit,
    CancelTimer,
    Start(false, 1),
];
