//! Stories of messages of several fragments: each fragment is facked, and what is sent once more
//! begins behind what is acknowledged. All of them have three fragments but one.

use super::stories::Telling::{
    self, Ack, ClientTransmit, Reply, Resend, ServerTransmit, Start, ToClient, ToServer, Wait,
};

/// Of a request only the first fragment comes, and its fack. A ping then gets a nocall: the second
/// and the third are sent once more, and come in the other order.
pub const RESEND_FROM_THE_MIDDLE: [Telling; 19] = [
    Start(false, 4_000),
    ClientTransmit,
    ClientTransmit,
    ClientTransmit,
    ToServer(0),
    ToClient(0),
    Wait,
    ToServer(3),
    ToClient(1),
    ClientTransmit,
    ClientTransmit,
    ToServer(5),
    ToServer(4),
    ToClient(3),
    Reply(1),
    ServerTransmit,
    ToClient(4),
    Ack,
    ToServer(6),
];

/// A ping comes between the two fragments of a request. Its nocall arrives when both of them are
/// acknowledged, and all of the request is sent once more while it runs.
pub const RESEND_OF_ALL: [Telling; 15] = [
    Start(false, 2_000),
    ClientTransmit,
    ClientTransmit,
    Wait,
    ToServer(0),
    ToServer(2),
    ToServer(1),
    ToClient(2),
    ToClient(1),
    ClientTransmit,
    ClientTransmit,
    ToServer(3),
    Reply(1),
    ServerTransmit,
    ToClient(4),
];

/// Of a reply only the first fragment comes, and its fack. The timer, the request and a ping each
/// have it sent once more from the second on; when all of it is acknowledged, from the first.
pub const REPLAY_FROM_THE_MIDDLE: [Telling; 34] = [
    Start(false, 1),
    ClientTransmit,
    ToServer(0),
    Wait,
    Reply(4_000),
    ServerTransmit,
    ServerTransmit,
    ServerTransmit,
    ToClient(0),
    ToServer(2),
    Resend,
    ServerTransmit,
    ServerTransmit,
    ToServer(0),
    ServerTransmit,
    ServerTransmit,
    ToServer(1),
    ServerTransmit,
    ServerTransmit,
    ToClient(2),
    ToServer(3),
    ToClient(3),
    ToServer(4),
    Resend,
    ServerTransmit,
    ServerTransmit,
    ServerTransmit,
    ToServer(0),
    ServerTransmit,
    ServerTransmit,
    ServerTransmit,
    ToServer(1),
    Ack,
    ToServer(5),
];

/// Two of three fragments are acknowledged, and the reply is lost. The first fragment comes once
/// more and begins the idempotent call again: the server forgets the second, which the client does
/// not send any more. Each ping gets a nocall; the last of these comes twice, and ends the call.
pub const BEGUN_AGAIN: [Telling; 33] = [
    Start(true, 4_000),
    ClientTransmit,
    ClientTransmit,
    ClientTransmit,
    ToServer(0),
    ToServer(1),
    ToClient(1),
    ToServer(2),
    Reply(1),
    ServerTransmit,
    ToServer(0),
    Wait,
    ToServer(3),
    ToClient(5),
    ClientTransmit,
    ToServer(4),
    Wait,
    ToServer(5),
    ToClient(7),
    ClientTransmit,
    Wait,
    ToServer(7),
    ToClient(8),
    ClientTransmit,
    Wait,
    ToServer(9),
    ToClient(9),
    ClientTransmit,
    Wait,
    ToServer(11),
    ToClient(10),
    ClientTransmit,
    ToClient(10),
];
