//! What only the author of server events does.

use crate::generate::author;
use crate::machines::event::Event;
use crate::records::server::{Answer, ServerSide};

/// The author of server events.
pub type Author = author::Author<ServerSide>;

impl Author {
    /// The next event meets a fresh server of any activity and boot value.
    pub fn set_fresh(&mut self, ticket_counter: u64) {
        let activity = self.random.uuid();
        let boot = self.random.field_u32();
        self.fresh_of::<ServerSide>(&activity, boot, ticket_counter);
    }

    /// Replies with a message of so many bytes.
    pub fn reply(&mut self, length: u32) {
        self.event(Event::Own(Answer::Reply { length }));
    }

    /// Answers with a fault of any status.
    pub fn fault(&mut self) {
        let status = self.random.field_u32();
        self.event(Event::Own(Answer::Fault { status }));
    }
}
