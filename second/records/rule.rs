//! The rules of a record. A record that breaks one is refused with 2.

#[derive(Clone, Copy, Debug, PartialEq, Eq)]
pub enum Rule {
    WaitCount,
    Resends,
    /// Sent is at most the fragment count.
    Sent,
    /// While a message is being sent, sent is below the fragment count.
    SentBelow,
    Acknowledged,
    /// The fragment count is the message length's, or 0 where no message is out.
    FragmentCount,
    KnownLast,
    HeldLength,
    HeldAboveLast,
    WaitState,
    AckState,
    CancelState,
    WaitTicket,
    AckTicket,
    CancelTicket,
    ResendCount,
    ResendState,
    ResendTicket,
}

/// The rules of the messages, which both sides have.
pub const MESSAGE_RULES: [Rule; 7] = [
    Rule::Sent,
    Rule::SentBelow,
    Rule::Acknowledged,
    Rule::FragmentCount,
    Rule::KnownLast,
    Rule::HeldLength,
    Rule::HeldAboveLast,
];

impl Rule {
    /// How a record breaks it.
    pub fn broken_name(self) -> &'static str {
        match self {
            Rule::WaitCount => "WAIT count above 5",
            Rule::Resends => "resends above 5",
            Rule::Sent => "sent above the fragment count",
            Rule::SentBelow => "sent equal to the fragment count",
            Rule::Acknowledged => "acknowledged above the fragment count",
            Rule::FragmentCount => "another fragment count",
            Rule::KnownLast => "known last above 31",
            Rule::HeldLength => "held length above 1392",
            Rule::HeldAboveLast => "held above the known last",
            Rule::WaitState => "WAIT armed where it is not named",
            Rule::AckState => "ACK armed where it is not named",
            Rule::CancelState => "CANCEL armed where it is not named",
            Rule::WaitTicket => "WAIT ticket above the counter",
            Rule::AckTicket => "ACK ticket above the counter",
            Rule::CancelTicket => "CANCEL ticket above the counter",
            Rule::ResendCount => "RESEND count above 5",
            Rule::ResendState => "RESEND armed where it is not named",
            Rule::ResendTicket => "RESEND ticket above the counter",
        }
    }
}
