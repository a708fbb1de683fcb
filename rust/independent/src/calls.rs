//! The entries over byte buffers. A call keeps nothing: a unit is its log and its image.
//!
//! Each call answers 0 or the number of a refusal. A refused call leaves log, image and fields as they were, an output
//! buffer of the right length zeroed, one of another length as it was, and no decision.

use crate::codec::{
    Engine, Image, Log, Message, Settings, BLANK, IMAGE_LENGTH, LOG_LENGTH, MESSAGE_LENGTH,
};
use crate::step::{self, Step};
use crate::Refusal;

pub const ACCEPTED: u32 = 0;

pub fn start(engine: u32, n: u32, unit: u32, entry: u32, log: &mut [u8], image: &mut [u8]) -> u32 {
    answer(try_start(engine, n, unit, entry, log, image))
}

pub fn key_on(log: &[u8], image: &mut [u8]) -> u32 {
    answer(try_key_on(log, image))
}

pub fn propose(log: &[u8], image: &mut [u8], mileage: u32, out: &mut [u8]) -> u32 {
    clear(out);
    answer(try_propose(log, image, mileage, out))
}

pub fn deliver(
    log: &mut [u8],
    image: &mut [u8],
    message: &[u8],
    out: &mut [u8],
    decision: &mut u32,
) -> u32 {
    clear(out);
    *decision = BLANK;
    answer(try_deliver(log, image, message, out, decision))
}

pub fn read_log(log: &[u8], fields: &mut [u32]) -> u32 {
    answer(try_read_log(log, fields))
}

pub fn write_log(fields: &[u32], log: &mut [u8]) -> u32 {
    answer(try_write_log(fields, log))
}

pub fn read_message(message: &[u8], fields: &mut [u32]) -> u32 {
    answer(try_read_message(message, fields))
}

pub fn write_message(fields: &[u32], message: &mut [u8]) -> u32 {
    clear(message);
    answer(try_write_message(fields, message))
}

fn try_start(
    engine: u32,
    n: u32,
    unit: u32,
    entry: u32,
    log: &mut [u8],
    image: &mut [u8],
) -> Result<(), Refusal> {
    let (log, image) = (sized_mut(log)?, sized_mut(image)?);
    let fresh = fresh([engine, n, unit], entry)?;
    fresh.write(log);
    step::key_on(fresh).write(image);
    Ok(())
}

fn try_key_on(log: &[u8], image: &mut [u8]) -> Result<(), Refusal> {
    let (log, image) = (sized(log)?, sized_mut(image)?);
    let log = Log::read(log).ok_or(Refusal::Log)?;
    step::key_on(log).write(image);
    Ok(())
}

fn try_propose(log: &[u8], image: &mut [u8], mileage: u32, out: &mut [u8]) -> Result<(), Refusal> {
    let (log, image, out) = (sized(log)?, sized_mut(image)?, sized_mut(out)?);
    let unit = read_unit(log, image)?;
    let step = step::propose(&unit, mileage)?;
    write_step(&step, image, out);
    Ok(())
}

fn try_deliver(
    log: &mut [u8],
    image: &mut [u8],
    message: &[u8],
    out: &mut [u8],
    decision: &mut u32,
) -> Result<(), Refusal> {
    let (log, image, message, out) = (
        sized_mut(log)?,
        sized_mut(image)?,
        sized(message)?,
        sized_mut(out)?,
    );
    let unit = read_unit(log, image)?;
    let message = Message::read(message).ok_or(Refusal::Message)?;
    let step = step::deliver(&unit, &message)?;
    if let Some(record) = step.log() {
        record.write(log);
    }
    write_step(&step, image, out);
    *decision = step.decision.unwrap_or(BLANK);
    Ok(())
}

fn try_read_log(log: &[u8], fields: &mut [u32]) -> Result<(), Refusal> {
    let (log, fields) = (sized(log)?, sized_mut(fields)?);
    *fields = Log::read(log).ok_or(Refusal::Log)?.fields();
    Ok(())
}

fn try_write_log(fields: &[u32], log: &mut [u8]) -> Result<(), Refusal> {
    let (fields, log) = (sized(fields)?, sized_mut(log)?);
    Log::from_fields(*fields).ok_or(Refusal::Log)?.write(log);
    Ok(())
}

fn try_read_message(message: &[u8], fields: &mut [u32]) -> Result<(), Refusal> {
    let (message, fields) = (sized(message)?, sized_mut(fields)?);
    *fields = Message::read(message).ok_or(Refusal::Message)?.fields();
    Ok(())
}

fn try_write_message(fields: &[u32], message: &mut [u8]) -> Result<(), Refusal> {
    let (fields, message) = (sized(fields)?, sized_mut(message)?);
    Message::from_fields(*fields)
        .ok_or(Refusal::Message)?
        .write(message);
    Ok(())
}

pub(crate) fn answer(result: Result<(), Refusal>) -> u32 {
    match result {
        Ok(()) => ACCEPTED,
        Err(refusal) => refusal as u32,
    }
}

/// The log of a fresh unit of this engine, n and number.
pub(crate) fn fresh([engine, n, unit]: [u32; 3], entry: u32) -> Result<Log, Refusal> {
    Engine::from_letter(engine)
        .and_then(|engine| Settings::new(engine, n, entry))
        .and_then(|settings| Log::fresh(settings, unit))
        .ok_or(Refusal::Log)
}

/// Makes an output buffer the empty message; one of a wrong length keeps its bytes.
pub(crate) fn clear(out: &mut [u8]) {
    if out.len() == MESSAGE_LENGTH {
        out.fill(0);
    }
}

fn read_unit(log: &[u8; LOG_LENGTH], image: &[u8; IMAGE_LENGTH]) -> Result<Image, Refusal> {
    let log = Log::read(log).ok_or(Refusal::Log)?;
    match Image::read(image) {
        Some(image) if image.fits(&log) => Ok(image),
        _ => Err(Refusal::Image),
    }
}

fn write_step(step: &Step, image: &mut [u8; IMAGE_LENGTH], out: &mut [u8; MESSAGE_LENGTH]) {
    step.image.write(image);
    send(step, out);
}

/// Writes the message, if there is one; `out` holds the empty message already.
pub(crate) fn send(step: &Step, out: &mut [u8; MESSAGE_LENGTH]) {
    if let Some(message) = &step.message {
        message.write(out);
    }
}

pub(crate) fn sized<T, const N: usize>(buffer: &[T]) -> Result<&[T; N], Refusal> {
    buffer.try_into().map_err(|_| Refusal::Length)
}

pub(crate) fn sized_mut<T, const N: usize>(buffer: &mut [T]) -> Result<&mut [T; N], Refusal> {
    buffer.try_into().map_err(|_| Refusal::Length)
}
