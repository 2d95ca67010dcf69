//! What is counted of the calls of a client and a server that are joined.

use crate::coverage::counts::Counts;
use crate::coverage::system_names::mark_name;
use crate::machines::effect::Notice;
use std::collections::HashMap;

/// A call that was started.
struct Book {
    idempotent: bool,
    dispatches: u64,
    /// What was sent once more from the middle, by its name.
    resumed: Vec<&'static str>,
    /// How often the client has cancelled it.
    cancels: u64,
    /// The number that the server noticed last.
    noticed: Option<u32>,
    /// Whether the server has noticed a cancel since the last dispatch.
    is_noticed: bool,
}

/// The calls of one run, by their numbers.
#[derive(Default)]
pub struct Calls {
    books: HashMap<u32, Book>,
}

impl Calls {
    pub fn started(&mut self, number: u32, idempotent: bool, counts: &mut Counts) {
        let book = Book {
            idempotent,
            dispatches: 0,
            resumed: Vec::new(),
            cancels: 0,
            noticed: None,
            is_noticed: false,
        };
        let mark = mark_name(idempotent);
        counts.add(format_args!("system calls started: {mark}"));
        self.books.insert(number, book);
    }

    /// What the client is told of its call.
    pub fn noticed(&self, number: u32, notice: Option<Notice>, counts: &mut Counts) {
        let Some(book) = self.books.get(&number) else {
            return;
        };
        count_end_of_cancelled(book, notice, counts);
        if notice == Some(Notice::Last) {
            let mark = mark_name(book.idempotent);
            counts.add(format_args!("system calls completed: {mark}"));
            if book.dispatches > 1 {
                counts.add_name("system calls completed after more than one dispatch");
            }
            for what in &book.resumed {
                counts.add(format_args!(
                    "system calls completed after a {what} from the middle"
                ));
            }
        }
    }

    /// A request or a reply is sent once more, from the first unacknowledged fragment on.
    pub fn resumed(&mut self, number: u32, what: &'static str) {
        if let Some(book) = self.books.get_mut(&number) {
            if !book.resumed.contains(&what) {
                book.resumed.push(what);
            }
        }
    }

    /// The client gives a call up of whose request it knows a part to be acknowledged.
    pub fn given_up_in_part(&self, number: u32, cause: u8, counts: &mut Counts) {
        let book = self.books.get(&number);
        if book.is_some_and(|book| book.dispatches > 0) {
            counts.add(format_args!(
                "system calls dispatched, acknowledged in part, given up by cause {cause}"
            ));
        }
    }

    /// The client cancels its call.
    pub fn cancelled(&mut self, number: u32, counts: &mut Counts) {
        if let Some(book) = self.books.get_mut(&number) {
            book.cancels += 1;
            let time = match book.cancels {
                1 => "the first time",
                _ => "once more",
            };
            counts.add(format_args!("system calls cancelled {time}"));
        }
    }

    /// The server notices a cancel of the call that runs.
    pub fn cancel_noticed(&mut self, number: u32, cancel_number: u32, counts: &mut Counts) {
        let Some(book) = self.books.get_mut(&number) else {
            return;
        };
        let what = match book.noticed {
            None => "the first one",
            Some(_) if book.is_noticed => "one above the last",
            Some(last) if cancel_number <= last => "an old one in another run",
            Some(_) => "a later one in another run",
        };
        counts.add(format_args!("system cancels noticed: {what}"));
        book.noticed = Some(cancel_number);
        book.is_noticed = true;
    }

    /// The server answers the call that runs with a fault.
    pub fn faulted(&self, number: u32, counts: &mut Counts) {
        let book = self.books.get(&number);
        if book.is_some_and(|book| book.is_noticed) {
            counts.add_name("system cancels answered by a fault");
        }
    }

    pub fn dispatched(&mut self, number: u32, counts: &mut Counts) {
        let Some(book) = self.books.get_mut(&number) else {
            return;
        };
        book.is_noticed = false;
        book.dispatches += 1;
        let time = match book.dispatches {
            1 => "the first time",
            2 => "the second time",
            _ => "once more",
        };
        let mark = mark_name(book.idempotent);
        counts.add(format_args!("system calls dispatched {time}: {mark}"));
    }
}

/// Counts how a call ends that was cancelled.
fn count_end_of_cancelled(book: &Book, notice: Option<Notice>, counts: &mut Counts) {
    let how = match notice {
        _ if book.cancels == 0 => return,
        Some(Notice::Last) => "completed".into(),
        Some(Notice::Fault(_)) => "faulted".into(),
        Some(Notice::Cause(cause)) => format!("given up by cause {cause}"),
        _ => return,
    };
    counts.add(format_args!("system calls cancelled, then {how}"));
}
