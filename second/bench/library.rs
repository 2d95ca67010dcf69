//! Another implementation of the door, with which this one is compared.

use crate::door::invocation::{Invocation, Lent};
use crate::records::client::ClientSide;
use crate::records::server::ServerSide;

/// Every function that a host calls. Each gives back the one number that the host gets.
pub trait Library {
    fn client(&mut self, invocation: &Invocation<ClientSide>, lent: Lent) -> u64;
    fn server(&mut self, invocation: &Invocation<ServerSide>, lent: Lent) -> u64;
    fn client_part(&mut self, number: u16, record: &[u8], slots: &[u8]) -> u64;
    fn server_part(&mut self, number: u16, record: &[u8], slots: &[u8]) -> u64;
    fn read(&mut self, datagram: &[u8], header: &mut [u8]) -> u64;
    fn write(&mut self, header: &[u8], body: &[u8], pdu: &mut [u8]) -> u64;
}
