//! The calls of a run, drawn by a seed: begins, the first of them refused, then advances.
use super::counts::Counts;
use super::session::{Session, MORE};
use crate::dice::Dice;
use crate::run::settings::{least_interval, Case, Settings};
use crate::run::tally::{Call, Reply};

/// Numbers of a frame memory for many frames, about.
const ROOM: usize = 1_000_000;
/// The most steps that a run may come to.
const STEPS: u32 = 2_147_483_647;
/// What memories hold before a call.
const FILLS: [f64; 6] = [0.0, -0.0, 1.5, -1e300, f64::INFINITY, f64::NAN];

/// How the attempts are cut.
#[derive(Clone, Copy, PartialEq)]
enum Style {
    Once,
    Ones,
    Cuts,
}

/// Makes the calls; ends the process with 1 at the first difference.
pub fn run(seed: u64, k: u64, case: &Case) -> Counts {
    let s = case.settings;
    let mut dice = Dice::new(seed, 1_000_000 + 1000 * s.level as u64 + k);
    let style = dice.choose(&[Style::Once, Style::Ones, Style::Cuts, Style::Cuts]);
    let name = format!("seed {seed}, level {}, settings {k}", s.level);
    let mut session = Session::new(name, s, dice.choose(&FILLS));
    if begin(&mut session, &s, &mut dice) {
        advance(&mut session, case, style, &mut dice);
        after(&mut session, &s, &mut dice);
    }
    session.counts()
}

/// Memories too short for a begin, some of them, then memories that suffice; whether a begin is accepted.
fn begin(session: &mut Session, s: &Settings, dice: &mut Dice) -> bool {
    let exact = exact(s);
    let short = [
        Call { state: exact.state - 1, ..exact },
        Call { work: exact.work - 1, ..exact },
        Call { frames: exact.frames - 1, ..exact },
        Call { state: 0, work: 0, frames: 0, ..exact },
    ];
    let more = Call { state: exact.state + MORE, work: exact.work + MORE, frames: exact.frames + 1, ..exact };
    let lent = [dice.choose(&short), dice.choose(&short), dice.choose(&[exact, more])];
    lent.iter().any(|&lent| session.begin(lent, dice.choose(&FILLS)))
}

/// Advances until the attempts are made or the run has ended.
fn advance(session: &mut Session, case: &Case, style: Style, dice: &mut Dice) {
    let s = case.settings;
    let mut left = case.attempts;
    while left > 0 && !session.ended() {
        if dice.below(8) == 0 {
            session.advance(refused(&s, session.steps(), dice), dice.choose(&FILLS));
        }
        let mut call = lent(&s, style, dice);
        call.budget = match style {
            Style::Once => left,
            Style::Ones => 1,
            Style::Cuts if dice.below(16) == 0 && fills_soon(&s) => STEPS - session.steps(),
            Style::Cuts => dice.choose(&[0, 1, 2, left, 1 + left / 8, 1 + left / 3]).min(left),
        };
        left = match session.advance(call, dice.choose(&FILLS)) {
            Reply::Full(made, _) => left.saturating_sub(made),
            _ => left.saturating_sub(call.budget),
        };
    }
}

/// An attempt more where the run goes on; of an ended run any budget answers its end again.
fn after(session: &mut Session, s: &Settings, dice: &mut Dice) {
    let most = if session.ended() { u32::MAX } else { 1 };
    for budget in [0, most, 1] {
        let frames = dice.choose(&[0, exact(s).frames]);
        session.advance(Call { budget, frames, ..exact(s) }, dice.choose(&FILLS));
    }
}

/// Memories of exactly the lengths that a call needs, the third for one frame.
fn exact(s: &Settings) -> Call {
    let frames = if s.dx_level <= s.level { s.frame_size() } else { 1 };
    Call { budget: 0, state: 8 * s.n(), work: 40 * s.n(), frames }
}

/// Memories that suffice: room for all frames, or for no frame, one, two, three.
fn lent(s: &Settings, style: Style, dice: &mut Dice) -> Call {
    let (exact, f) = (exact(s), s.frame_size());
    let many = f * ROOM.div_ceil(f);
    let frames = if style == Style::Once { many } else { dice.choose(&[0, f - 1, f, f, 2 * f - 1, 2 * f, 3 * f, 3 * f + 7]) };
    let more = dice.choose(&[0, 0, 1, MORE]);
    Call { state: exact.state + more, work: exact.work + more, frames, ..exact }
}

/// An advance that is refused while the run goes on: a memory too short, or a budget too large.
fn refused(s: &Settings, steps: u32, dice: &mut Dice) -> Call {
    let exact = Call { budget: 1, ..exact(s) };
    match dice.below(6) {
        0 => Call { state: exact.state - 1, ..exact },
        1 => Call { work: exact.work - 1, ..exact },
        2 => Call { state: 0, work: 0, frames: 0, ..exact },
        3 => Call { work: exact.work - 1, budget: u32::MAX, ..exact },
        4 => Call { budget: u32::MAX, ..exact },
        _ => Call { budget: STEPS - steps + 1, ..exact },
    }
}

/// Whether frame steps come so often that a small frame memory is soon full.
fn fills_soon(s: &Settings) -> bool {
    !s.skip && s.interval <= 16.0 * least_interval(s.level)
}
