//! The functions of the static library, as `include/mikhakun.h` declares them.

/// A move of readings to one of their forms.
pub type Move = unsafe extern "C" fn(
    sheet: *const u8,
    sheet_len: usize,
    readings: *const u8,
    readings_len: usize,
    out: *mut u8,
    room: usize,
    length: *mut u64,
    place: *mut u64,
) -> u64;

/// In a record's `first`: no tick.
pub const NO_TICK: u64 = u64::MAX;

/// A record of figures.
#[repr(C)]
#[derive(Clone, Copy, Default)]
pub struct Record {
    pub signal: u64,
    pub held: u64,
    pub failed: u64,
    pub unsettled: u64,
    pub clashed: u64,
    pub first: u64,
}

extern "C" {
    pub fn mikhakun_check(sheet: *const u8, sheet_len: usize, rows: *mut u64, place: *mut u64) -> u64;

    pub fn mikhakun_add(
        sheet: *const u8,
        sheet_len: usize,
        readings: *const u8,
        readings_len: usize,
        table: *mut u64,
        words: usize,
        new_facts: *mut u64,
        clash: *mut u64,
        place: *mut u64,
    ) -> u64;

    pub fn mikhakun_ask(
        sheet: *const u8,
        sheet_len: usize,
        table: *const u64,
        words: usize,
        signal: u64,
        tick: u64,
        value: *mut u64,
        place: *mut u64,
    ) -> u64;

    pub fn mikhakun_to_spans(
        sheet: *const u8,
        sheet_len: usize,
        readings: *const u8,
        readings_len: usize,
        out: *mut u8,
        room: usize,
        length: *mut u64,
        place: *mut u64,
    ) -> u64;

    pub fn mikhakun_to_readings(
        sheet: *const u8,
        sheet_len: usize,
        readings: *const u8,
        readings_len: usize,
        out: *mut u8,
        room: usize,
        length: *mut u64,
        place: *mut u64,
    ) -> u64;

    pub fn mikhakun_figures(
        sheet: *const u8,
        sheet_len: usize,
        texts: *const u8,
        texts_len: usize,
        lengths: *const u64,
        runs: usize,
        work: *mut u64,
        words: usize,
        records: *mut Record,
        record_count: usize,
        place: *mut u64,
    ) -> u64;

    pub fn mikhakun_print_rule(
        sheet: *const u8,
        sheet_len: usize,
        rule: u64,
        out: *mut u8,
        room: usize,
        length: *mut u64,
        place: *mut u64,
    ) -> u64;

    pub fn mikhakun_write_dump(
        sheet: *const u8,
        sheet_len: usize,
        table: *const u64,
        words: usize,
        out: *mut u8,
        room: usize,
        length: *mut u64,
        place: *mut u64,
    ) -> u64;

    pub fn mikhakun_read_dump(
        sheet: *const u8,
        sheet_len: usize,
        dump: *const u8,
        dump_len: usize,
        out: *mut u8,
        room: usize,
        length: *mut u64,
        place: *mut u64,
    ) -> u64;

    pub fn mikhakun_caption(
        sheet: *const u8,
        sheet_len: usize,
        captions: *const u8,
        captions_len: usize,
        signal: u64,
        in_captions: *mut u64,
        start: *mut u64,
        length: *mut u64,
        place: *mut u64,
    ) -> u64;
}
