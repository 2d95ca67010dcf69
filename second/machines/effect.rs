//! What an event gives besides the record.

/// What an event that is not refused gives.
#[derive(Clone, Debug, Default, PartialEq, Eq)]
pub struct Effect {
    /// The length of the PDU sent, which lies at the beginning of the lent buffer.
    pub pdu_length: Option<usize>,
    pub notice: Option<Notice>,
}

#[derive(Clone, Copy, Debug, PartialEq, Eq)]
pub enum Notice {
    Last,
    /// The contiguous count.
    Count(u32),
    /// The status of a fault.
    Fault(u32),
    /// The status of a reject.
    Reject(u32),
    /// The local cause of a failure.
    Cause(u8),
    /// The server has all of the request.
    Dispatch,
    /// The client wants the call that runs to be cancelled.
    Cancel,
}

impl Effect {
    pub fn nothing() -> Effect {
        Effect::default()
    }

    pub fn of_pdu(pdu_length: usize) -> Effect {
        Effect {
            pdu_length: Some(pdu_length),
            notice: None,
        }
    }

    pub fn of_notice(notice: Notice) -> Effect {
        Effect {
            pdu_length: None,
            notice: Some(notice),
        }
    }
}
