//! The numbers answered.

/// The refusals in the order of document 01's table; each has its number there.
#[derive(Clone, Copy, Debug, PartialEq, Eq, PartialOrd, Ord)]
pub enum Refusal {
    /// A lent buffer of the wrong length, or a message over 44,544 bytes.
    LentBuffer = 1,
    BrokenRecord = 2,
    ShortDatagram = 3,
    Version = 4,
    Type = 5,
    Representation = 6,
    Authentication = 7,
    BodyLength = 8,
    OtherActivity = 9,
    /// A type that only the other side takes.
    TypeNotForThisSide = 10,
    /// A request with the maybe or the broadcast bit.
    MaybeOrBroadcast = 11,
    FragmentNumber = 12,
    OldCall = 13,
    MalformedBody = 14,
    NoRow = 15,
    AlreadyHeld = 16,
    Contradiction = 17,
    LateTimer = 18,
    /// A start after the last call number.
    NoCallNumber = 19,
    /// A timer must be armed after the last ticket.
    NoTicket = 20,
}

impl Refusal {
    pub fn number(self) -> u8 {
        self as u8
    }
}

/// The number answered: 0, or that of the refusal.
pub fn answer<T>(result: &Result<T, Refusal>) -> u8 {
    match result {
        Ok(_) => 0,
        Err(refusal) => refusal.number(),
    }
}

/// All grounds on which an event is refused, not only the one that decides.
#[derive(Clone, Debug, Default, PartialEq, Eq)]
pub struct Grounds {
    found: Vec<Refusal>,
}

impl Grounds {
    pub fn add(&mut self, refusal: Refusal) {
        self.found.push(refusal);
    }

    pub fn add_if(&mut self, holds: bool, refusal: Refusal) {
        if holds {
            self.add(refusal);
        }
    }

    /// The lowest position in the table decides.
    pub fn decide(&self) -> Result<(), Refusal> {
        match self.found.iter().min() {
            Some(refusal) => Err(*refusal),
            None => Ok(()),
        }
    }

    pub fn numbers(&self) -> Vec<u8> {
        self.found.iter().map(|refusal| refusal.number()).collect()
    }
}
