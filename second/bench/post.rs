//! A side on the bench: its record, and the memory that each implementation is lent for it.

use super::difference::{places, Difference};
use super::library::Library;
use super::memory::Memory;
use crate::door::invocation::{Invocation, Lent};
use crate::door::layout::RECORD_LENGTH;
use crate::door::places::RecordBytes;
use crate::door::record_bytes::{decode, encode};
use crate::door::step::Door;
use crate::records::client::ClientSide;
use crate::records::record::Record;
use crate::records::server::ServerSide;

/// A side on the bench.
pub struct Post<S: Door> {
    /// The record that the bytes stand for, as long as they are readable.
    pub record: Record<S>,
    pub own: Memory,
    pub other: Memory,
}

impl<S: Door> Post<S> {
    pub fn new(record: Record<S>) -> Post<S> {
        let mut post = Post {
            own: Memory::new(true),
            other: Memory::new(false),
            record,
        };
        let bytes = encode(&post.record);
        post.set_bytes(&bytes);
        post
    }

    /// The slots are as they are before anything is put.
    pub fn clear_slots(&mut self) {
        self.own.clear_slots();
        self.other.clear_slots();
    }

    /// New bytes of a record, with nothing put.
    pub fn set_bytes(&mut self, bytes: &[u8]) {
        self.own.set_record(bytes);
        self.other.set_record(bytes);
        self.clear_slots();
    }

    /// The record is that of the bytes.
    pub fn follow_bytes(&mut self) {
        if let Some(record) = decode(&self.bytes()) {
            self.record = record;
        }
    }

    /// The bytes of the record.
    pub fn bytes(&self) -> RecordBytes {
        let mut bytes = [0; RECORD_LENGTH];
        bytes.copy_from_slice(&self.own.record.whole()[..RECORD_LENGTH]);
        bytes
    }

    /// What differs after a call, told with the record before it. Both then go on from the same.
    pub fn difference(
        &mut self,
        what: impl FnOnce() -> String,
        before: &[u8],
        outcomes: Option<(String, String)>,
    ) -> Option<Difference> {
        if outcomes.is_none() && self.own == self.other {
            return None;
        }
        let places = places(&self.own, &self.other);
        self.other.copy_from(&self.own);
        Some(Difference {
            what: what(),
            before: before.to_vec(),
            outcomes,
            places,
        })
    }
}

/// Both sides.
pub struct Posts {
    pub client: Post<ClientSide>,
    pub server: Post<ServerSide>,
}

/// A side that can stand on the bench.
pub trait Benched: Door {
    fn post(posts: &Posts) -> &Post<Self>;
    fn post_mut(posts: &mut Posts) -> &mut Post<Self>;
    fn call(library: &mut dyn Library, invocation: &Invocation<Self>, lent: Lent) -> u64;
    fn ask_part(library: &mut dyn Library, number: u16, record: &[u8], slots: &[u8]) -> u64;
}

impl Benched for ClientSide {
    fn post(posts: &Posts) -> &Post<ClientSide> {
        &posts.client
    }

    fn post_mut(posts: &mut Posts) -> &mut Post<ClientSide> {
        &mut posts.client
    }

    fn call(library: &mut dyn Library, invocation: &Invocation<ClientSide>, lent: Lent) -> u64 {
        library.client(invocation, lent)
    }

    fn ask_part(library: &mut dyn Library, number: u16, record: &[u8], slots: &[u8]) -> u64 {
        library.client_part(number, record, slots)
    }
}

impl Benched for ServerSide {
    fn post(posts: &Posts) -> &Post<ServerSide> {
        &posts.server
    }

    fn post_mut(posts: &mut Posts) -> &mut Post<ServerSide> {
        &mut posts.server
    }

    fn call(library: &mut dyn Library, invocation: &Invocation<ServerSide>, lent: Lent) -> u64 {
        library.server(invocation, lent)
    }

    fn ask_part(library: &mut dyn Library, number: u16, record: &[u8], slots: &[u8]) -> u64 {
        library.server_part(number, record, slots)
    }
}
