//! Case 7 of request 1, by hand: an idempotent call that is begun again when a part of its request
//! is acknowledged cannot be filled any more, and the client gives it up. The table has no row that
//! would help, and none may be added.

use crate::codec::pdu::pdu_type;
use crate::machines::effect::Notice;
use crate::machines::refusal::Refusal;
use crate::records::client::{ClientSide, State, TimerKind};
use crate::records::server::{ServerSide, State as ServerState};
use crate::self_test::all::check;
use crate::self_test::client_stage::{timer, transmit};
use crate::self_test::pair::{deliver, given, joined, Given};
use crate::self_test::server_stage::{self, reply};
use crate::self_test::side::{done, only};
use crate::self_test::stage::Stage;

pub fn self_test() -> Result<(), &'static str> {
    let (mut stage, nocall) = resent_five_times()?;
    let (twice, _) = deliver::<ClientSide>(&mut stage, &nocall);
    check(
        twice == only(Notice::Cause(2)) && stage.client.state == State::Fault,
        "case 7: the sixth nocall ends the call by cause 2",
    )?;
    // A nocall leaves the count of WAIT, so that five pings in a row are all there are.
    let (mut stage, _) = resent_five_times()?;
    let (sixth, _) = wait(&mut stage);
    check(
        sixth == only(Notice::Cause(1)) && stage.client.state == State::Fault,
        "case 7: the sixth WAIT ends the call by cause 1",
    )
}

/// The WAIT timer runs out.
fn wait(stage: &mut Stage) -> Given {
    let ticket = stage.client.own.wait.unwrap_or(0);
    let outcome = timer(stage, TimerKind::Wait, ticket);
    given(outcome, stage)
}

/// The number and the mask of a fack; none of another PDU.
fn said(pdu: &[u8]) -> Option<(u16, u8)> {
    let is_fack = pdu.len() == 100 && pdu[1] == pdu_type::FACK;
    is_fack.then(|| (u16::from_le_bytes([pdu[76], pdu[77]]), pdu[96]))
}

/// A call of three fragments has run, its first two are acknowledged, and its reply is lost. The
/// first fragment, which comes once more, begins it again.
fn begun_again() -> Result<Stage, &'static str> {
    let mut stage = joined(true, 2_785);
    let fragments = [0, 1, 2].map(|_| {
        let sent = transmit(&mut stage);
        given(sent, &stage).1
    });
    for number in [0, 1] {
        let (_, fack) = deliver::<ServerSide>(&mut stage, &fragments[number]);
        check(
            said(&fack) == Some((number as u16, 0)),
            "case 7: the facks of 0 and 1",
        )?;
        let (taken, _) = deliver::<ClientSide>(&mut stage, &fack);
        check(taken == done(), "case 7: the facks taken")?;
    }
    let (dispatch, lost) = deliver::<ServerSide>(&mut stage, &fragments[2]);
    let notice = dispatch.map(|effect| effect.notice);
    check(
        notice == Ok(Some(Notice::Dispatch)) && said(&lost) == Some((2, 0)),
        "case 7: the dispatch",
    )?;
    let lost = reply(&mut stage, 1).and_then(|_| server_stage::transmit(&mut stage));
    check(
        lost.is_ok() && stage.server.state == ServerState::IdleRepeatable,
        "case 7: a reply that is lost",
    )?;
    let (_, fack) = deliver::<ServerSide>(&mut stage, &fragments[0]);
    check(
        said(&fack) == Some((0, 0)) && stage.server.state == ServerState::Collect,
        "case 7: a late fragment 0 begins the call again",
    )?;
    let (taken, _) = deliver::<ClientSide>(&mut stage, &fack);
    check(
        taken == done() && stage.client.outgoing.acknowledged == 2,
        "case 7: two fragments stay acknowledged",
    )?;
    Ok(stage)
}

/// A ping gets a nocall, and the client sends once more what is not acknowledged: fragment 2. Gives
/// the nocall, and what the fragment brings about.
fn resend(stage: &mut Stage) -> Result<(Vec<u8>, Given), &'static str> {
    let (_, ping) = wait(stage);
    let (_, nocall) = deliver::<ServerSide>(stage, &ping);
    check(
        nocall.len() == 80 && nocall[1] == pdu_type::NOCALL,
        "case 7: a nocall for each ping",
    )?;
    let (taken, _) = deliver::<ClientSide>(stage, &nocall);
    check(
        taken == done()
            && (stage.client.state, stage.client.outgoing.sent) == (State::SendFrags, 2),
        "case 7: the client resends from 2",
    )?;
    let sent = transmit(stage);
    let (_, fragment) = given(sent, stage);
    check(
        fragment.get(76..78) == Some(&[2, 0]) && stage.client.state == State::Dispatched,
        "case 7: only fragment 2 is sent once more",
    )?;
    let result = deliver::<ServerSide>(stage, &fragment);
    check(
        stage.server.state == ServerState::Collect && stage.server.incoming.held().0 == 0b101,
        "case 7: COLLECT is not filled",
    )?;
    Ok((nocall, result))
}

/// The call that is begun again, with the resends at their limit, and the last nocall.
fn resent_five_times() -> Result<(Stage, Vec<u8>), &'static str> {
    let mut stage = begun_again()?;
    let (mut nocall, (_, fack)) = resend(&mut stage)?;
    check(
        said(&fack) == Some((0, 2)),
        "case 7: the fack tells of the gap",
    )?;
    let (taken, _) = deliver::<ClientSide>(&mut stage, &fack);
    check(taken == done(), "case 7: only the number of a fack is read")?;
    for _ in 2..=5 {
        let (next, (repeated, _)) = resend(&mut stage)?;
        check(
            repeated == Err(Refusal::AlreadyHeld),
            "case 7: fragment 2 is held already",
        )?;
        nocall = next;
    }
    check(stage.client.resends == 5, "case 7: five resends")?;
    Ok((stage, nocall))
}
