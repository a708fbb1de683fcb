//! One of the implementations compared, as the functions it has.

use crate::core;
use independent::calls;
use independent::card::{self, Row};

type Start = fn(u32, u32, u32, u32, &mut [u8], &mut [u8]) -> u32;
pub type Deliver = fn(&mut [u8], &mut [u8], &[u8], &mut [u8], &mut u32) -> u32;
pub type CardRow = fn(u32, u32, u32, &mut [Row], u32) -> u32;
pub type CardPropose = fn(u32, u32, u32, &mut [Row], u32, u32, &mut [u8]) -> u32;
pub type CardDeliver = fn(u32, u32, u32, &mut [Row], &[u8], &mut [u8], &mut u32) -> u32;

#[derive(Clone, Copy)]
pub struct Side {
    pub name: &'static str,
    pub start: Start,
    pub key_on: fn(&[u8], &mut [u8]) -> u32,
    pub propose: fn(&[u8], &mut [u8], u32, &mut [u8]) -> u32,
    pub deliver: Deliver,
    pub read_log: fn(&[u8], &mut [u32]) -> u32,
    pub write_log: fn(&[u32], &mut [u8]) -> u32,
    pub read_message: fn(&[u8], &mut [u32]) -> u32,
    pub write_message: fn(&[u32], &mut [u8]) -> u32,
    pub card_start: CardRow,
    pub card_key_on: CardRow,
    pub card_propose: CardPropose,
    pub card_deliver: CardDeliver,
}

pub const CORE: Side = Side {
    name: "core",
    start: core::start,
    key_on: core::key_on,
    propose: core::propose,
    deliver: core::deliver,
    read_log: core::read_log,
    write_log: core::write_log,
    read_message: core::read_message,
    write_message: core::write_message,
    card_start: core::card_start,
    card_key_on: core::card_key_on,
    card_propose: core::card_propose,
    card_deliver: core::card_deliver,
};

pub const INDEPENDENT: Side = Side {
    name: "independent",
    start: calls::start,
    key_on: calls::key_on,
    propose: calls::propose,
    deliver: calls::deliver,
    read_log: calls::read_log,
    write_log: calls::write_log,
    read_message: calls::read_message,
    write_message: calls::write_message,
    card_start: card::start,
    card_key_on: card::key_on,
    card_propose: card::propose,
    card_deliver: card::deliver,
};

/// Two sides that must do the same.
#[derive(Clone, Copy)]
pub struct Pair(pub Side, pub Side);

pub const BOTH: Pair = Pair(CORE, INDEPENDENT);
