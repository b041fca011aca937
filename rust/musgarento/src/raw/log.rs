//! The functions of logs: their player and their recorder.

mod c {
    extern "C" {
        pub fn musgarento_play(
            card: *mut u8,
            card_len: usize,
            table: *mut u8,
            table_len: usize,
            pending: *mut u8,
            pending_len: usize,
            player: *mut u8,
            player_len: usize,
            log: *const u8,
            log_len: usize,
            out: *mut u8,
            out_len: usize,
            taken: *mut usize,
            ended: *mut u8,
            refusal: *mut u8,
            answer: *mut u8,
            count: *mut usize,
        ) -> u8;
        pub fn musgarento_log_begin(out: *mut u8, out_len: usize, count: *mut usize) -> u8;
        pub fn musgarento_log_record(
            kind: u64,
            bar: u64,
            offset: u64,
            width: u64,
            value: u64,
            refusal: u8,
            out: *mut u8,
            out_len: usize,
            count: *mut usize,
        ) -> u8;
    }
}

/// Plays a log up to the end of its first complete record.
pub fn play(
    card: &mut [u8],
    table: &mut [u8],
    pending: &mut [u8],
    player: &mut [u8],
    log: &[u8],
    out: &mut [u8],
    taken: &mut usize,
    ended: &mut u8,
    refusal: &mut u8,
    answer: &mut u8,
    count: &mut usize,
) -> u8 {
    // SAFETY: as said in `raw.rs`.
    unsafe {
        c::musgarento_play(
            card.as_mut_ptr(),
            card.len(),
            table.as_mut_ptr(),
            table.len(),
            pending.as_mut_ptr(),
            pending.len(),
            player.as_mut_ptr(),
            player.len(),
            log.as_ptr(),
            log.len(),
            out.as_mut_ptr(),
            out.len(),
            taken,
            ended,
            refusal,
            answer,
            count,
        )
    }
}

/// Writes the beginning of a log, mark and version.
pub fn log_begin(out: &mut [u8], count: &mut usize) -> u8 {
    // SAFETY: as said in `raw.rs`.
    unsafe { c::musgarento_log_begin(out.as_mut_ptr(), out.len(), count) }
}

/// Writes the record of a call that was answered with `refusal`.
pub fn log_record(
    kind: u64,
    bar: u64,
    offset: u64,
    width: u64,
    value: u64,
    refusal: u8,
    out: &mut [u8],
    count: &mut usize,
) -> u8 {
    // SAFETY: as said in `raw.rs`.
    unsafe {
        c::musgarento_log_record(
            kind,
            bar,
            offset,
            width,
            value,
            refusal,
            out.as_mut_ptr(),
            out.len(),
            count,
        )
    }
}
