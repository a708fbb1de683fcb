//! What the comparisons of calls and of histories say of a pair that must fail.

use crate::wrong::failed;
use compare::differential::{self, Amount};
use compare::histories;
use compare::random::Random;
use compare::side::Pair;

pub const FEW: Amount = Amount {
    calls: 100_000,
    swept: 0,
    mileages: None,
};

pub fn calls_report(pair: Pair) -> String {
    failed(differential::run(&pair, &FEW, &mut Random::new(1)))
}

pub fn histories_report(pair: Pair) -> String {
    failed(histories::run(&pair, 2_000, &mut Random::new(1)))
}
