//! What the operations of the controller do, and what the console expects of them.

use crate::MESSAGE_SIZE;

/// The interface of the controller, a UUID in its little-endian form.
pub const INTERFACE: [u8; 16] =
    [0x56, 0x41, 0x4c, 0x56, 0x45, 0x43, 0x0e, 0x47, 0x9d, 0x3b, 0x6d, 0x6f, 0x72, 0x70, 0x68, 0x65];
/// Its version.
pub const VERSION: u32 = 1;

/// The status of a call of another interface, and of every call of operation 2.
pub const UNKNOWN_INTERFACE: u32 = 0x1c01_0003;
/// The status of a call of an operation that is not there.
pub const UNKNOWN_OPERATION: u32 = 0x1c01_0002;
/// The status of a request that its operation cannot read.
pub const BAD_REQUEST: u32 = 0x1c01_000b;
/// The status of a reply that would be too long.
pub const REPLY_TOO_LONG: u32 = 0x1c01_0013;
/// The status of a call that was ended because of a cancel: nca_s_fault_cancel of C706. Of this controller it also
/// says that the operation had no effect: what an operation does, it does whole, at the end of its work.
pub const CANCELLED: u32 = 0x1c00_000d;

/// Operation 0: the reply is the request.
pub const ECHO: u16 = 0;
/// Operation 1: the reply is the request, last byte first.
pub const REVERSE: u16 = 1;
/// Operation 2: a fault, always.
pub const FAULT: u16 = 2;
/// Operation 3: the reply is how often this call was executed, a u32.
pub const COUNT: u16 = 3;
/// Operation 4: the reply is as long as the request's first four bytes say, and made of the request.
pub const FILL: u16 = 4;

/// How a call is answered.
#[derive(Clone, Debug, PartialEq, Eq)]
pub enum Answer {
    /// With a reply.
    Reply(Vec<u8>),
    /// With a fault of this status.
    Fault(u32),
}

/// Executes an operation; `executions` is how often this call was executed, this time included.
pub fn execute(operation: u16, request: &[u8], executions: u32) -> Answer {
    match operation {
        ECHO => Answer::Reply(request.to_vec()),
        REVERSE => Answer::Reply(request.iter().rev().copied().collect()),
        FAULT => Answer::Fault(UNKNOWN_INTERFACE),
        COUNT => Answer::Reply(executions.to_le_bytes().to_vec()),
        FILL => fill(request),
        _ => Answer::Fault(UNKNOWN_OPERATION),
    }
}

fn fill(request: &[u8]) -> Answer {
    let Some(size) = request.first_chunk().map(|first| u32::from_le_bytes(*first) as usize) else {
        return Answer::Fault(BAD_REQUEST);
    };
    if size > MESSAGE_SIZE {
        return Answer::Fault(REPLY_TOO_LONG);
    }
    Answer::Reply((0..size).map(|at| request[at % request.len()] ^ (at / request.len()) as u8).collect())
}

/// Whether an answer is one that the call must have, judged by the request and not by what `execute` does. An
/// idempotent call may have been executed more than once.
pub fn is_right(operation: u16, idempotent: bool, request: &[u8], answer: &Answer) -> bool {
    match (operation, answer) {
        (ECHO, Answer::Reply(reply)) => reply == request,
        (REVERSE, Answer::Reply(reply)) => reply.iter().rev().eq(request),
        (FAULT, Answer::Fault(status)) => *status == UNKNOWN_INTERFACE,
        (COUNT, Answer::Reply(reply)) => match reply.as_slice().try_into().map(u32::from_le_bytes) {
            Ok(count) => count == 1 || idempotent && count > 1,
            Err(_) => false,
        },
        (FILL, Answer::Reply(reply)) => is_filled(request, reply),
        _ => false,
    }
}

/// As long as the request says, and the request over and over, each time with the number of the time added bit by bit.
fn is_filled(request: &[u8], reply: &[u8]) -> bool {
    let asked = request.first_chunk().map(|first| u32::from_le_bytes(*first) as usize);
    let same = |(time, part): (usize, &[u8])| part.iter().zip(request).all(|(got, sent)| got ^ sent == time as u8);
    asked == Some(reply.len()) && reply.chunks(request.len()).enumerate().all(same)
}

#[cfg(test)]
mod tests {
    use super::*;

    #[test]
    fn operations_do_what_they_say() {
        assert_eq!(execute(ECHO, &[1, 2], 1), Answer::Reply(vec![1, 2]));
        assert_eq!(execute(REVERSE, &[1, 2], 1), Answer::Reply(vec![2, 1]));
        assert_eq!(execute(FAULT, &[], 1), Answer::Fault(0x1c01_0003));
        assert_eq!(execute(COUNT, &[], 258), Answer::Reply(vec![2, 1, 0, 0]));
        assert_eq!(execute(FILL, &[6, 0, 0, 0], 1), Answer::Reply(vec![6, 0, 0, 0, 7, 1]));
        assert_eq!(execute(5, &[], 1), Answer::Fault(UNKNOWN_OPERATION));
    }

    #[test]
    fn fill_refuses_what_it_cannot_do() {
        assert_eq!(execute(FILL, &[6, 0, 0], 1), Answer::Fault(BAD_REQUEST));
        assert_eq!(execute(FILL, &44_545_u32.to_le_bytes(), 1), Answer::Fault(REPLY_TOO_LONG));
    }

    #[test]
    fn a_second_execution_is_right_only_if_idempotent() {
        let twice = Answer::Reply(vec![2, 0, 0, 0]);
        assert!(!is_right(COUNT, false, &[], &twice));
        assert!(is_right(COUNT, true, &[], &twice));
        assert!(!is_right(COUNT, true, &[], &Answer::Reply(vec![0; 4])));
        assert!(!is_right(COUNT, true, &[], &Answer::Reply(vec![1])));
    }

    #[test]
    fn what_is_executed_is_right_and_nothing_else() {
        let request: Vec<u8> = [[9, 1, 0, 0], [7; 4], [1, 2, 3, 4]].concat();
        for operation in [ECHO, REVERSE, FAULT, COUNT, FILL] {
            let answer = execute(operation, &request, 1);
            assert!(is_right(operation, false, &request, &answer), "operation {operation}");
            for other in [Answer::Fault(1), Answer::Reply(vec![]), Answer::Reply(request[1..].to_vec())] {
                assert!(!is_right(operation, false, &request, &other), "operation {operation}, {other:?}");
            }
            let Answer::Reply(mut reply) = answer else { continue };
            reply[3] ^= 1;
            assert!(!is_right(operation, false, &request, &Answer::Reply(reply)), "operation {operation}");
        }
    }
}
