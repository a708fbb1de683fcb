//! Calls on a card with one wrong behaviour each.

use compare::format::*;
use compare::rows::of_number;
use compare::side::{CardDeliver, CardPropose, CardRow};
use independent::card::{self, Row};

/// The entry of a message, or 0.
fn entry_of(message: &[u8]) -> u32 {
    if message.len() == MESSAGE_LENGTH {
        get(message, MESSAGE_ENTRY)
    } else {
        0
    }
}

fn has_row(rows: &[Row], number: u32) -> bool {
    (1..=rows.len()).contains(&(number as usize))
}

fn in_range(engine: u32, n: u32, unit: u32) -> bool {
    card::start(engine, n, unit, &mut [of_number(0)], 1) == ACCEPTED
}

pub const SETTINGS_BEFORE_ROW: CardPropose =
    |engine, n, unit, rows, row, mileage, out| match card::propose(
        engine, n, unit, rows, row, mileage, out,
    ) {
        NO_ROW if !in_range(engine, n, unit) => MALFORMED_LOG,
        number => number,
    };

pub const SETTINGS_BEFORE_MESSAGES_ROW: CardDeliver =
    |engine, n, unit, rows, message, out, decision| match card::deliver(
        engine, n, unit, rows, message, out, decision,
    ) {
        NO_ROW if !in_range(engine, n, unit) => MALFORMED_LOG,
        number => number,
    };

/// As with the calls for one unit.
pub const LOG_BEFORE_MESSAGE: CardDeliver =
    |engine, n, unit, rows, message, out, decision| match card::deliver(
        engine, n, unit, rows, message, out, decision,
    ) {
        MALFORMED_MESSAGE if has_row(rows, entry_of(message)) => {
            let mut other = rows.to_vec();
            match card::key_on(engine, n, unit, &mut other, entry_of(message)) {
                ACCEPTED => MALFORMED_MESSAGE,
                number => number,
            }
        }
        number => number,
    };

pub const ROW_BEFORE_MESSAGE: CardDeliver =
    |engine, n, unit, rows, message, out, decision| match card::deliver(
        engine, n, unit, rows, message, out, decision,
    ) {
        MALFORMED_MESSAGE if !has_row(rows, entry_of(message)) => NO_ROW,
        number => number,
    };

pub const ROWS_FROM_0: CardRow =
    |engine, n, unit, rows, row| card::start(engine, n, unit, rows, row.wrapping_add(1));

pub const LAST_ROW_REFUSED: CardRow = |engine, n, unit, rows, row| {
    let none = if row as usize == rows.len() { 0 } else { row };
    card::key_on(engine, n, unit, rows, none)
};

pub const ROW_PAST_COUNT: CardPropose = |engine, n, unit, rows, row, mileage, out| {
    let past = rows.len() as u32 + 1;
    let taken = if row == past { past - 1 } else { row };
    card::propose(engine, n, unit, rows, taken, mileage, out)
};

pub const SIXTY_FIVE_ROWS: CardRow = |engine, n, unit, rows, row| {
    let count = if rows.len() == 65 { 64 } else { rows.len() };
    card::start(engine, n, unit, &mut rows[..count], row)
};

pub const NO_ROWS_IS_NO_ROW: CardRow = |engine, n, unit, rows, row| {
    let number = card::start(engine, n, unit, rows, row);
    if rows.is_empty() {
        NO_ROW
    } else {
        number
    }
};

pub const ROW_CUT_TO_A_BYTE: CardRow =
    |engine, n, unit, rows, row| card::start(engine, n, unit, rows, row & 255);

pub const KEY_ON_READS_IMAGE: CardRow = |engine, n, unit, rows, row| {
    let image = has_row(rows, row).then(|| rows[row as usize - 1].image);
    let before = rows.to_vec();
    let number = card::key_on(engine, n, unit, rows, row);
    if number == ACCEPTED && image.is_some_and(|image| image.entry != row) {
        rows.copy_from_slice(&before);
        return UNFIT_IMAGE;
    }
    number
};

pub const KEY_ON_KEEPS_MARKS: CardRow = |engine, n, unit, rows, row| {
    let before = rows.to_vec();
    let number = card::key_on(engine, n, unit, rows, row);
    if number == ACCEPTED {
        rows[row as usize - 1].seconds = before[row as usize - 1].seconds;
    }
    number
};

pub const START_READS_ROW: CardRow = |engine, n, unit, rows, row| {
    let broken = has_row(rows, row) && rows[row as usize - 1].log.engine > 255;
    card::start(if broken { 0 } else { engine }, n, unit, rows, row)
};

/// With the row's own settings beside the card.
pub const OTHER_SETTINGS: CardRow =
    |engine, n, unit, rows, row| match card::key_on(engine, n, unit, rows, row) {
        UNFIT_IMAGE => {
            let log = rows[row as usize - 1].log;
            card::key_on(log.engine, log.n, log.unit, rows, row)
        }
        number => number,
    };

/// The same for a delivery.
pub const OTHER_SETTINGS_HEARD: CardDeliver =
    |engine, n, unit, rows, message, out, decision| match card::deliver(
        engine, n, unit, rows, message, out, decision,
    ) {
        UNFIT_IMAGE => {
            let log = rows[entry_of(message) as usize - 1].log;
            card::deliver(log.engine, log.n, log.unit, rows, message, out, decision)
        }
        number => number,
    };

/// As if the row's log and image had the entry of its number.
pub const ENTRY_NOT_COMPARED: CardPropose = |engine, n, unit, rows, row, mileage, out| {
    let before = rows.to_vec();
    let number = card::propose(engine, n, unit, rows, row, mileage, out);
    let other =
        number == UNFIT_IMAGE && (1..=MAX_ENTRY).contains(&rows[row as usize - 1].log.entry);
    if !other {
        return number;
    }
    let own = &mut rows[row as usize - 1];
    (own.log.entry, own.image.entry) = (row, row);
    let number = card::propose(engine, n, unit, rows, row, mileage, out);
    if number != ACCEPTED {
        rows.copy_from_slice(&before);
    }
    number
};

/// A delivery on a row that is first changed. Refused, the row is as it was.
fn deliver_on(
    change: fn(&mut Row),
    [engine, n, unit]: [u32; 3],
    rows: &mut [Row],
    message: &[u8],
    out: &mut [u8],
    decision: &mut u32,
) -> u32 {
    let before = rows.to_vec();
    if has_row(rows, entry_of(message)) {
        change(&mut rows[entry_of(message) as usize - 1]);
    }
    let number = card::deliver(engine, n, unit, rows, message, out, decision);
    if number != ACCEPTED {
        rows.copy_from_slice(&before);
    }
    number
}

pub const MARKS_CUT: CardDeliver = |engine, n, unit, rows, message, out, decision| {
    let change = |row: &mut Row| {
        row.checks.marks &= 65_535;
        row.seconds.marks &= 65_535;
    };
    deliver_on(change, [engine, n, unit], rows, message, out, decision)
};

pub const IMAGE_OF_OTHERS: CardDeliver = |engine, n, unit, rows, message, out, decision| {
    let change = |row: &mut Row| row.image.unit = row.log.unit;
    deliver_on(change, [engine, n, unit], rows, message, out, decision)
};

pub const IMAGE_NOT_FITTING: CardDeliver = |engine, n, unit, rows, message, out, decision| {
    let change = |row: &mut Row| row.image.round = row.image.round.max(row.log.round);
    deliver_on(change, [engine, n, unit], rows, message, out, decision)
};

pub const N_CUT: CardDeliver = |engine, n, unit, rows, message, out, decision| {
    card::deliver(engine, n & 255, unit, rows, message, out, decision)
};

/// Row 1 in the place of the message's row.
pub const TO_ROW_1: CardDeliver = |engine, n, unit, rows, message, out, decision| {
    let entry = entry_of(message);
    if !(has_row(rows, entry) && has_row(rows, 1)) {
        return card::deliver(engine, n, unit, rows, message, out, decision);
    }
    let mut other = message.to_vec();
    put(&mut other, MESSAGE_ENTRY, 1);
    card::deliver(engine, n, unit, rows, &other, out, decision)
};

pub const REFUSED_CLEARS: CardPropose = |engine, n, unit, rows, row, mileage, out| {
    let number = card::propose(engine, n, unit, rows, row, mileage, out);
    if number == OUT_OF_RANGE {
        rows[row as usize - 1] = of_number(0);
    }
    number
};

pub const OTHER_ROW_CHANGED: CardDeliver = |engine, n, unit, rows, message, out, decision| {
    let number = card::deliver(engine, n, unit, rows, message, out, decision);
    let next = entry_of(message) as usize % rows.len().max(1);
    if number == ACCEPTED && rows.len() > 1 {
        rows[next].seconds.estimates[15] ^= 1;
    }
    number
};

pub const OUT_KEPT: CardPropose = |engine, n, unit, rows, row, mileage, out| {
    let before = out.to_vec();
    let number = card::propose(engine, n, unit, rows, row, mileage, out);
    if number != ACCEPTED {
        out.copy_from_slice(&before);
    }
    number
};

pub const OUT_OF_ANY_LENGTH: CardPropose = |engine, n, unit, rows, row, mileage, out| {
    let number = card::propose(engine, n, unit, rows, row, mileage, out);
    if number == WRONG_LENGTH {
        out.fill(0);
    }
    number
};

pub const DECISION_KEPT: CardDeliver = |engine, n, unit, rows, message, out, decision| {
    let before = *decision;
    let number = card::deliver(engine, n, unit, rows, message, out, decision);
    if number != ACCEPTED {
        *decision = before;
    }
    number
};

pub const WHOLE_CARD_CHECKED: CardDeliver = |engine, n, unit, rows, message, out, decision| {
    let before = rows.to_vec();
    let number = card::deliver(engine, n, unit, rows, message, out, decision);
    let entries = (1..).zip(&before);
    if number == ACCEPTED
        && entries
            .into_iter()
            .any(|(entry, row)| row.log.entry != entry)
    {
        rows.copy_from_slice(&before);
        out.fill(0);
        *decision = BLANK;
        return UNFIT_IMAGE;
    }
    number
};

pub const PROPOSAL_LOGGED: CardPropose = |engine, n, unit, rows, row, mileage, out| {
    let number = card::propose(engine, n, unit, rows, row, mileage, out);
    if number == ACCEPTED {
        let own = &mut rows[row as usize - 1];
        own.log.proposal = own.image.proposal;
    }
    number
};

pub const STEP_NOT_LOGGED: CardDeliver = |engine, n, unit, rows, message, out, decision| {
    let before = rows.to_vec();
    let number = card::deliver(engine, n, unit, rows, message, out, decision);
    if number == ACCEPTED && message[0] == b'C' {
        let place = entry_of(message) as usize - 1;
        rows[place].log = before[place].log;
    }
    number
};

/// Decides what the next row of the card proposes, if it was started and is in round 0.
pub const DECIDES_ANOTHER_ROW: CardDeliver = |engine, n, unit, rows, message, out, decision| {
    let number = card::deliver(engine, n, unit, rows, message, out, decision);
    let next = rows.get(entry_of(message) as usize).map(|row| row.image);
    let proposal = next
        .filter(|next| next.engine == engine && next.round == 0)
        .map_or(BLANK, |next| next.proposal);
    if *decision != BLANK && proposal <= MAX_MILEAGE {
        *decision = proposal;
    }
    number
};

/// The last SECOND but one closes the round, as if another unit had sent it again.
pub const QUORUM_TOO_LOW: CardDeliver = |engine, n, unit, rows, message, out, decision| {
    let number = card::deliver(engine, n, unit, rows, message, out, decision);
    if number != ACCEPTED || message[0] != b'S' {
        return number;
    }
    let row = &rows[entry_of(message) as usize - 1];
    let marks = row.seconds.marks;
    let short = marks.count_ones() + 1 == quorum(engine as u8, n) && row.image.round < MAX_ROUND;
    let unmarked = (0..n).find(|unit| marks >> unit & 1 == 0);
    let (Some(sender), true) = (unmarked, short) else {
        return number;
    };
    let mut other = message.to_vec();
    put(&mut other, SENDER, sender);
    card::deliver(engine, n, unit, rows, &other, out, decision)
};
