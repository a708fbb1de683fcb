//! The verified core, behind one safe function for each C entry. All `unsafe` of the package stands here.

use independent::card::Row;

extern "C" {
    fn mileage_version() -> u32;
    fn mileage_start(
        engine: u32,
        n: u32,
        unit: u32,
        entry: u32,
        log: *mut u8,
        log_len: usize,
        image: *mut u8,
        image_len: usize,
    ) -> u32;
    fn mileage_key_on(log: *const u8, log_len: usize, image: *mut u8, image_len: usize) -> u32;
    fn mileage_propose(
        log: *const u8,
        log_len: usize,
        image: *mut u8,
        image_len: usize,
        mileage: u32,
        out: *mut u8,
        out_len: usize,
    ) -> u32;
    fn mileage_deliver(
        log: *mut u8,
        log_len: usize,
        image: *mut u8,
        image_len: usize,
        message: *const u8,
        message_len: usize,
        out: *mut u8,
        out_len: usize,
        decision: *mut u32,
    ) -> u32;
    fn mileage_read_log(log: *const u8, log_len: usize, fields: *mut u32, fields_len: usize)
        -> u32;
    fn mileage_write_log(
        fields: *const u32,
        fields_len: usize,
        log: *mut u8,
        log_len: usize,
    ) -> u32;
    fn mileage_read_message(
        message: *const u8,
        message_len: usize,
        fields: *mut u32,
        fields_len: usize,
    ) -> u32;
    fn mileage_write_message(
        fields: *const u32,
        fields_len: usize,
        message: *mut u8,
        message_len: usize,
    ) -> u32;
    fn mileage_card_start(
        engine: u32,
        n: u32,
        unit: u32,
        rows: *mut Row,
        count: usize,
        row: u32,
    ) -> u32;
    fn mileage_card_key_on(
        engine: u32,
        n: u32,
        unit: u32,
        rows: *mut Row,
        count: usize,
        row: u32,
    ) -> u32;
    fn mileage_card_propose(
        engine: u32,
        n: u32,
        unit: u32,
        rows: *mut Row,
        count: usize,
        row: u32,
        mileage: u32,
        out: *mut u8,
        out_len: usize,
    ) -> u32;
    fn mileage_card_deliver(
        engine: u32,
        n: u32,
        unit: u32,
        rows: *mut Row,
        count: usize,
        message: *const u8,
        message_len: usize,
        out: *mut u8,
        out_len: usize,
        decision: *mut u32,
    ) -> u32;
}

// Each call below is sound for these reasons: a slice's pointer is valid for its length and not null, `decision` is a reference and so
// valid for one number, what is lent at once does not overlap, and the archive keeps to the header: it touches nothing else, and only
// reads what is passed as const. A row is laid out as the header's, which `names` compares, and any numbers make one.

pub fn version() -> u32 {
    unsafe { mileage_version() }
}

pub fn start(engine: u32, n: u32, unit: u32, entry: u32, log: &mut [u8], image: &mut [u8]) -> u32 {
    unsafe {
        mileage_start(
            engine,
            n,
            unit,
            entry,
            log.as_mut_ptr(),
            log.len(),
            image.as_mut_ptr(),
            image.len(),
        )
    }
}

pub fn key_on(log: &[u8], image: &mut [u8]) -> u32 {
    unsafe { mileage_key_on(log.as_ptr(), log.len(), image.as_mut_ptr(), image.len()) }
}

pub fn propose(log: &[u8], image: &mut [u8], mileage: u32, out: &mut [u8]) -> u32 {
    unsafe {
        mileage_propose(
            log.as_ptr(),
            log.len(),
            image.as_mut_ptr(),
            image.len(),
            mileage,
            out.as_mut_ptr(),
            out.len(),
        )
    }
}

pub fn deliver(
    log: &mut [u8],
    image: &mut [u8],
    message: &[u8],
    out: &mut [u8],
    decision: &mut u32,
) -> u32 {
    unsafe {
        mileage_deliver(
            log.as_mut_ptr(),
            log.len(),
            image.as_mut_ptr(),
            image.len(),
            message.as_ptr(),
            message.len(),
            out.as_mut_ptr(),
            out.len(),
            decision,
        )
    }
}

pub fn read_log(log: &[u8], fields: &mut [u32]) -> u32 {
    unsafe { mileage_read_log(log.as_ptr(), log.len(), fields.as_mut_ptr(), fields.len()) }
}

pub fn write_log(fields: &[u32], log: &mut [u8]) -> u32 {
    unsafe { mileage_write_log(fields.as_ptr(), fields.len(), log.as_mut_ptr(), log.len()) }
}

pub fn read_message(message: &[u8], fields: &mut [u32]) -> u32 {
    unsafe {
        mileage_read_message(
            message.as_ptr(),
            message.len(),
            fields.as_mut_ptr(),
            fields.len(),
        )
    }
}

pub fn write_message(fields: &[u32], message: &mut [u8]) -> u32 {
    unsafe {
        mileage_write_message(
            fields.as_ptr(),
            fields.len(),
            message.as_mut_ptr(),
            message.len(),
        )
    }
}

pub fn card_start(engine: u32, n: u32, unit: u32, rows: &mut [Row], row: u32) -> u32 {
    unsafe { mileage_card_start(engine, n, unit, rows.as_mut_ptr(), rows.len(), row) }
}

pub fn card_key_on(engine: u32, n: u32, unit: u32, rows: &mut [Row], row: u32) -> u32 {
    unsafe { mileage_card_key_on(engine, n, unit, rows.as_mut_ptr(), rows.len(), row) }
}

pub fn card_propose(
    engine: u32,
    n: u32,
    unit: u32,
    rows: &mut [Row],
    row: u32,
    mileage: u32,
    out: &mut [u8],
) -> u32 {
    unsafe {
        mileage_card_propose(
            engine,
            n,
            unit,
            rows.as_mut_ptr(),
            rows.len(),
            row,
            mileage,
            out.as_mut_ptr(),
            out.len(),
        )
    }
}

pub fn card_deliver(
    engine: u32,
    n: u32,
    unit: u32,
    rows: &mut [Row],
    message: &[u8],
    out: &mut [u8],
    decision: &mut u32,
) -> u32 {
    unsafe {
        mileage_card_deliver(
            engine,
            n,
            unit,
            rows.as_mut_ptr(),
            rows.len(),
            message.as_ptr(),
            message.len(),
            out.as_mut_ptr(),
            out.len(),
            decision,
        )
    }
}
