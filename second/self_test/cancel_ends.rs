//! Cases 3 and 4 of request 2, by hand: what becomes of the timer where a cancelled call ends.

use crate::codec::pdu::pdu_type;
use crate::machines::effect::Notice;
use crate::machines::refusal::Refusal;
use crate::records::client::{State, TimerKind};
use crate::self_test::all::check;
use crate::self_test::cancels::{tickets, FIRST, SECOND};
use crate::self_test::client_stage::{arrive, cancel, dispatched, timer};
use crate::self_test::side::{is_silent, only, TICKETS};
use crate::self_test::stage::Stage;

pub fn self_test() -> Result<(), &'static str> {
    ends()?;
    ends_at_limits()?;
    given_up()
}

/// A client in DISPATCHED with CANCEL armed.
fn cancelled(idempotent: bool) -> Stage {
    let mut stage = dispatched(idempotent, 8);
    // One that is refused fails the checks behind it.
    let _ = cancel(&mut stage);
    stage
}

/// Case 3. However a call ends, CANCEL is disarmed.
fn ends() -> Result<(), &'static str> {
    let mut stage = cancelled(false);
    check(
        tickets(&stage) == [Some(FIRST), None, Some(SECOND)],
        "cancel case 3: WAIT and CANCEL armed",
    )?;
    let last = arrive(&mut stage, pdu_type::RESPONSE, 0, 0, b"all");
    check(
        last == only(Notice::Last) && tickets(&stage) == [None, Some(TICKETS + 3), None],
        "cancel case 3: only ACK armed in ACK_PENDING",
    )?;
    let mut stage = cancelled(true);
    let last = arrive(&mut stage, pdu_type::RESPONSE, 0, 0, b"all");
    check(
        last == only(Notice::Last) && tickets(&stage) == [None; 3],
        "cancel case 3: nothing armed in COMPLETE",
    )?;
    for (pdu_type, notice) in [
        (pdu_type::FAULT, Notice::Fault(258)),
        (pdu_type::REJECT, Notice::Reject(258)),
    ] {
        let mut stage = cancelled(false);
        let failed = arrive(&mut stage, pdu_type, 0, 0, &[0, 0, 1, 2]);
        check(
            failed == only(notice) && tickets(&stage) == [None; 3],
            "cancel case 3: nothing armed behind a fault or reject",
        )?;
    }
    Ok(())
}

/// The same at the sixth WAIT and at the sixth nocall.
fn ends_at_limits() -> Result<(), &'static str> {
    let mut stage = cancelled(false);
    stage.client.own.waits = 5;
    let sixth = timer(&mut stage, TimerKind::Wait, FIRST);
    check(
        sixth == only(Notice::Cause(1)) && tickets(&stage) == [None; 3],
        "cancel case 3: nothing armed behind the sixth WAIT",
    )?;
    let mut stage = cancelled(false);
    stage.client.resends = 5;
    let sixth = arrive(&mut stage, pdu_type::NOCALL, 0, 0, &[]);
    check(
        sixth == only(Notice::Cause(2)) && tickets(&stage) == [None; 3],
        "cancel case 3: nothing armed behind the sixth nocall",
    )
}

/// Case 4. The timer ends the call by cause 3 and sends nothing; both tickets are then late.
fn given_up() -> Result<(), &'static str> {
    let mut stage = cancelled(false);
    let acts = timer(&mut stage, TimerKind::Cancel, SECOND);
    check(
        acts == only(Notice::Cause(3)) && is_silent(&stage),
        "cancel case 4: CANCEL acts",
    )?;
    check(
        stage.client.state == State::Fault && tickets(&stage) == [None; 3],
        "cancel case 4: WAIT is gone too",
    )?;
    let late = [(TimerKind::Cancel, SECOND), (TimerKind::Wait, FIRST)]
        .map(|(kind, ticket)| timer(&mut stage, kind, ticket));
    check(
        late == [Err(Refusal::NoRow), Err(Refusal::NoRow)],
        "cancel case 4: both tickets behind it",
    )
}
