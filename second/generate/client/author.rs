//! What only the author of client events does.

use crate::generate::author;
use crate::generate::parts::any_call;
use crate::machines::event::Event;
use crate::records::client::{ClientEvent, ClientSide, Start};

/// The author of client events.
pub type Author = author::Author<ClientSide>;

impl Author {
    /// The next event meets a fresh client of any activity.
    pub fn set_fresh(&mut self, ticket_counter: u64) {
        let activity = self.random.uuid();
        self.fresh_of::<ClientSide>(&activity, (), ticket_counter);
    }

    /// Starts any call with a message of so many bytes.
    pub fn start(&mut self, length: u32) {
        let call = any_call(&mut self.random);
        let start = Start { call, length };
        self.event(Event::Own(ClientEvent::Start(start)));
    }

    /// The local cancel.
    pub fn cancel(&mut self) {
        self.event(Event::Own(ClientEvent::Cancel));
    }
}
