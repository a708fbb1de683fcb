//! The rules of engines B and R as functions on records. Lines are those of the source's listings.

use crate::codec::{
    is_mileage, Engine, Gathered, Image, Kind, Log, Message, Settings, BLANK, EVERYONE, MAX_ROUND,
    SPLIT,
};
use crate::Refusal;

/// The unit after a step, and what the step gives. The log to write, where it writes one, is the image's record.
#[derive(Clone, Copy, Debug, PartialEq, Eq)]
pub struct Step {
    pub image: Image,
    pub logs: bool,
    pub message: Option<Message>,
    pub decision: Option<u32>,
}

impl Step {
    fn quiet(image: Image) -> Step {
        Step {
            image,
            logs: false,
            message: None,
            decision: None,
        }
    }

    pub fn log(&self) -> Option<&Log> {
        self.logs.then_some(&self.image.current)
    }
}

/// B takes (n + 1) / 2 rounded up, R takes (2n + 1) / 3 rounded up.
pub fn quorum(settings: Settings) -> u32 {
    match settings.engine {
        Engine::B => (settings.n + 1).div_ceil(2),
        Engine::R => (2 * settings.n + 1).div_ceil(3),
    }
}

/// Over half of those gathered.
pub fn majority(gathered: u32) -> u32 {
    gathered / 2 + 1
}

/// The image of a log, without marks (lines 5 to 7).
pub fn key_on(log: Log) -> Image {
    Image {
        current: log,
        checks: Gathered::NONE,
        seconds: Gathered::NONE,
    }
}

/// Lines 17 to 20. The mileage must be in range even where the unit has a proposal already.
pub fn propose(image: &Image, mileage: u32) -> Result<Step, Refusal> {
    if !is_mileage(mileage) {
        return Err(Refusal::Mileage);
    }
    let mut step = Step::quiet(*image);
    let unit = &mut step.image.current;
    if unit.proposal == BLANK {
        unit.proposal = mileage;
    }
    step.message = Some(to_everyone(unit, Kind::First, unit.proposal, unit.proposal));
    Ok(step)
}

/// A message below the unit's round, a SKIP too, is answered with SKIP alone (lines 8 to 16).
pub fn deliver(image: &Image, message: &Message) -> Result<Step, Refusal> {
    let unit = &image.current;
    if !is_for(message, unit) {
        return Err(Refusal::NotForUnit);
    }
    let mut step = Step::quiet(*image);
    if message.round < unit.round {
        step.message = Some(skip_to(unit, message.sender));
        return Ok(step);
    }
    if message.round > unit.round {
        enter(&mut step.image, message.round, message.proposal);
    }
    match message.kind {
        Kind::First => first(&mut step, message.proposal),
        Kind::Check => check(&mut step, message),
        Kind::Second => second(&mut step, message)?,
        Kind::Skip => (),
    }
    Ok(step)
}

fn is_for(message: &Message, unit: &Log) -> bool {
    message.settings == unit.settings
        && (message.receiver == EVERYONE || message.receiver == unit.unit)
}

fn enter(image: &mut Image, round: u32, proposal: u32) {
    let unit = &mut image.current;
    unit.round = round;
    unit.proposal = proposal;
    unit.first = BLANK;
    unit.second = BLANK;
    image.checks = Gathered::NONE;
    image.seconds = Gathered::NONE;
}

/// Lines 22 to 26. The unit's own proposal stays as it is. "A FIRST of the unit's round, met with a first estimate present, makes it send its
/// CHECK (B) or SECOND (R) again."
fn first(step: &mut Step, proposal: u32) {
    let unit = &mut step.image.current;
    if unit.first == BLANK {
        unit.first = proposal;
        step.logs = true;
    }
    step.message = Some(match unit.settings.engine {
        Engine::B => to_everyone(unit, Kind::Check, unit.first, unit.first),
        Engine::R => to_everyone(unit, Kind::Second, unit.first, unit.proposal),
    });
}

/// B's lines 27 to 35. "The second estimate is set only where it is blank"; "a CHECK met with a second estimate present makes it send that SECOND
/// again", with "the proposal that the image now holds".
fn check(step: &mut Step, message: &Message) {
    let Image {
        current: unit,
        checks,
        ..
    } = &mut step.image;
    if unit.second == BLANK {
        if !checks.mark(message.sender, message.estimate) || !is_quorum(unit, checks) {
            return;
        }
        unit.second = common(checks).unwrap_or(SPLIT);
        *checks = Gathered::NONE;
        step.logs = true;
    }
    step.message = Some(to_everyone(unit, Kind::Second, unit.second, unit.proposal));
}

/// B's lines 37 to 46, R's lines 28 to 33. Closing a round writes no log.
fn second(step: &mut Step, message: &Message) -> Result<(), Refusal> {
    let Image {
        current: unit,
        seconds,
        ..
    } = &mut step.image;
    if !seconds.mark(message.sender, message.estimate) || !is_quorum(unit, seconds) {
        return Ok(());
    }
    if unit.round == MAX_ROUND {
        return Err(Refusal::LastRound);
    }
    let round = unit.round + 1;
    let proposal = match unit.settings.engine {
        Engine::B => seconds
            .estimates()
            .find(|&estimate| is_mileage(estimate))
            .unwrap_or(unit.proposal),
        Engine::R => majority_estimate(seconds).unwrap_or(BLANK),
    };
    step.decision = common(seconds).filter(|&estimate| is_mileage(estimate));
    enter(&mut step.image, round, proposal);
    Ok(())
}

fn is_quorum(unit: &Log, gathered: &Gathered) -> bool {
    gathered.count() >= quorum(unit.settings)
}

/// The one estimate of all that are marked.
fn common(gathered: &Gathered) -> Option<u32> {
    let mut estimates = gathered.estimates();
    let lowest = estimates.next()?;
    estimates
        .all(|estimate| estimate == lowest)
        .then_some(lowest)
}

/// "R's majority is of those gathered", not the (n + 1) / 2 of R's line 32.
fn majority_estimate(gathered: &Gathered) -> Option<u32> {
    let needed = majority(gathered.count());
    let votes = |candidate| {
        gathered
            .estimates()
            .filter(|&estimate| estimate == candidate)
            .count() as u32
    };
    gathered
        .estimates()
        .find(|&candidate| votes(candidate) >= needed)
}

fn to_everyone(unit: &Log, kind: Kind, estimate: u32, proposal: u32) -> Message {
    Message {
        kind,
        settings: unit.settings,
        sender: unit.unit,
        receiver: EVERYONE,
        round: unit.round,
        estimate,
        proposal,
    }
}

fn skip_to(unit: &Log, receiver: u32) -> Message {
    Message {
        receiver,
        ..to_everyone(unit, Kind::Skip, BLANK, unit.proposal)
    }
}
