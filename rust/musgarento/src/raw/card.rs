//! The functions of a card.

mod c {
    extern "C" {
        pub fn musgarento_start(
            card: *mut u8,
            card_len: usize,
            config: *const u8,
            config_len: usize,
            sizes: *const u32,
            sizes_len: usize,
            events: u64,
            requester: u64,
            table: *mut u8,
            table_len: usize,
            pending: *mut u8,
            pending_len: usize,
        ) -> u8;
        pub fn musgarento_config_read(
            card: *const u8,
            card_len: usize,
            table: *const u8,
            table_len: usize,
            pending: *const u8,
            pending_len: usize,
            offset: u64,
            width: u64,
            value: *mut u32,
        ) -> u8;
        pub fn musgarento_config_write(
            card: *mut u8,
            card_len: usize,
            table: *const u8,
            table_len: usize,
            pending: *mut u8,
            pending_len: usize,
            offset: u64,
            width: u64,
            value: u32,
            out: *mut u8,
            out_len: usize,
            count: *mut usize,
        ) -> u8;
        pub fn musgarento_bar_read(
            card: *const u8,
            card_len: usize,
            table: *const u8,
            table_len: usize,
            pending: *const u8,
            pending_len: usize,
            bar: u64,
            offset: u64,
            width: u64,
            value: *mut u64,
        ) -> u8;
        pub fn musgarento_bar_write(
            card: *mut u8,
            card_len: usize,
            table: *mut u8,
            table_len: usize,
            pending: *mut u8,
            pending_len: usize,
            bar: u64,
            offset: u64,
            width: u64,
            value: u64,
            out: *mut u8,
            out_len: usize,
            count: *mut usize,
        ) -> u8;
        pub fn musgarento_event(
            card: *mut u8,
            card_len: usize,
            table: *const u8,
            table_len: usize,
            pending: *mut u8,
            pending_len: usize,
            number: u64,
            out: *mut u8,
            out_len: usize,
            answer: *mut u8,
            count: *mut usize,
        ) -> u8;
        pub fn musgarento_withdraw(
            card: *mut u8,
            card_len: usize,
            table: *const u8,
            table_len: usize,
            pending: *mut u8,
            pending_len: usize,
            vector: u64,
            was_set: *mut u8,
        ) -> u8;
        pub fn musgarento_line(
            card: *mut u8,
            card_len: usize,
            table: *const u8,
            table_len: usize,
            pending: *const u8,
            pending_len: usize,
            level: u64,
            out: *mut u8,
            out_len: usize,
            count: *mut usize,
        ) -> u8;
        pub fn musgarento_reset(
            card: *mut u8,
            card_len: usize,
            table: *mut u8,
            table_len: usize,
            pending: *mut u8,
            pending_len: usize,
            out: *mut u8,
            out_len: usize,
            count: *mut usize,
        ) -> u8;
        pub fn musgarento_save(
            card: *const u8,
            card_len: usize,
            table: *const u8,
            table_len: usize,
            pending: *const u8,
            pending_len: usize,
            out: *mut u8,
            out_len: usize,
            count: *mut usize,
        ) -> u8;
        pub fn musgarento_restore(
            card: *mut u8,
            card_len: usize,
            table: *mut u8,
            table_len: usize,
            pending: *mut u8,
            pending_len: usize,
            image: *const u8,
            image_len: usize,
        ) -> u8;
    }
}

/// Starts a card.
pub fn start(
    card: &mut [u8],
    config: &[u8],
    sizes: &[u32],
    events: u64,
    requester: u64,
    table: &mut [u8],
    pending: &mut [u8],
) -> u8 {
    // SAFETY: as said in `raw.rs`.
    unsafe {
        c::musgarento_start(
            card.as_mut_ptr(),
            card.len(),
            config.as_ptr(),
            config.len(),
            sizes.as_ptr(),
            sizes.len(),
            events,
            requester,
            table.as_mut_ptr(),
            table.len(),
            pending.as_mut_ptr(),
            pending.len(),
        )
    }
}

/// Reads configuration bytes.
pub fn config_read(
    card: &[u8],
    table: &[u8],
    pending: &[u8],
    offset: u64,
    width: u64,
    value: &mut u32,
) -> u8 {
    // SAFETY: as said in `raw.rs`.
    unsafe {
        c::musgarento_config_read(
            card.as_ptr(),
            card.len(),
            table.as_ptr(),
            table.len(),
            pending.as_ptr(),
            pending.len(),
            offset,
            width,
            value,
        )
    }
}

/// Writes configuration bytes.
pub fn config_write(
    card: &mut [u8],
    table: &[u8],
    pending: &mut [u8],
    offset: u64,
    width: u64,
    value: u32,
    out: &mut [u8],
    count: &mut usize,
) -> u8 {
    // SAFETY: as said in `raw.rs`.
    unsafe {
        c::musgarento_config_write(
            card.as_mut_ptr(),
            card.len(),
            table.as_ptr(),
            table.len(),
            pending.as_mut_ptr(),
            pending.len(),
            offset,
            width,
            value,
            out.as_mut_ptr(),
            out.len(),
            count,
        )
    }
}

/// Reads the table or the pending array.
pub fn bar_read(
    card: &[u8],
    table: &[u8],
    pending: &[u8],
    bar: u64,
    offset: u64,
    width: u64,
    value: &mut u64,
) -> u8 {
    // SAFETY: as said in `raw.rs`.
    unsafe {
        c::musgarento_bar_read(
            card.as_ptr(),
            card.len(),
            table.as_ptr(),
            table.len(),
            pending.as_ptr(),
            pending.len(),
            bar,
            offset,
            width,
            value,
        )
    }
}

/// Writes the table or the pending array.
pub fn bar_write(
    card: &mut [u8],
    table: &mut [u8],
    pending: &mut [u8],
    bar: u64,
    offset: u64,
    width: u64,
    value: u64,
    out: &mut [u8],
    count: &mut usize,
) -> u8 {
    // SAFETY: as said in `raw.rs`.
    unsafe {
        c::musgarento_bar_write(
            card.as_mut_ptr(),
            card.len(),
            table.as_mut_ptr(),
            table.len(),
            pending.as_mut_ptr(),
            pending.len(),
            bar,
            offset,
            width,
            value,
            out.as_mut_ptr(),
            out.len(),
            count,
        )
    }
}

/// A device event.
pub fn event(
    card: &mut [u8],
    table: &[u8],
    pending: &mut [u8],
    number: u64,
    out: &mut [u8],
    answer: &mut u8,
    count: &mut usize,
) -> u8 {
    // SAFETY: as said in `raw.rs`.
    unsafe {
        c::musgarento_event(
            card.as_mut_ptr(),
            card.len(),
            table.as_ptr(),
            table.len(),
            pending.as_mut_ptr(),
            pending.len(),
            number,
            out.as_mut_ptr(),
            out.len(),
            answer,
            count,
        )
    }
}

/// Withdraws a vector of the mechanism in force: clears its waiting bit.
/// `was_set` is 1 if the bit was set, else 0.
pub fn withdraw(
    card: &mut [u8],
    table: &[u8],
    pending: &mut [u8],
    vector: u64,
    was_set: &mut u8,
) -> u8 {
    // SAFETY: as said in `raw.rs`.
    unsafe {
        c::musgarento_withdraw(
            card.as_mut_ptr(),
            card.len(),
            table.as_ptr(),
            table.len(),
            pending.as_mut_ptr(),
            pending.len(),
            vector,
            was_set,
        )
    }
}

/// Sets the device's line: `level` 0 is low, anything else high, 256 too.
pub fn line(
    card: &mut [u8],
    table: &[u8],
    pending: &[u8],
    level: u64,
    out: &mut [u8],
    count: &mut usize,
) -> u8 {
    // SAFETY: as said in `raw.rs`.
    unsafe {
        c::musgarento_line(
            card.as_mut_ptr(),
            card.len(),
            table.as_ptr(),
            table.len(),
            pending.as_ptr(),
            pending.len(),
            level,
            out.as_mut_ptr(),
            out.len(),
            count,
        )
    }
}

/// Resets the card.
pub fn reset(
    card: &mut [u8],
    table: &mut [u8],
    pending: &mut [u8],
    out: &mut [u8],
    count: &mut usize,
) -> u8 {
    // SAFETY: as said in `raw.rs`.
    unsafe {
        c::musgarento_reset(
            card.as_mut_ptr(),
            card.len(),
            table.as_mut_ptr(),
            table.len(),
            pending.as_mut_ptr(),
            pending.len(),
            out.as_mut_ptr(),
            out.len(),
            count,
        )
    }
}

/// Writes an image.
pub fn save(card: &[u8], table: &[u8], pending: &[u8], out: &mut [u8], count: &mut usize) -> u8 {
    // SAFETY: as said in `raw.rs`.
    unsafe {
        c::musgarento_save(
            card.as_ptr(),
            card.len(),
            table.as_ptr(),
            table.len(),
            pending.as_ptr(),
            pending.len(),
            out.as_mut_ptr(),
            out.len(),
            count,
        )
    }
}

/// Restores card, table and pending array from an image, over a card of any
/// contents.
pub fn restore(card: &mut [u8], table: &mut [u8], pending: &mut [u8], image: &[u8]) -> u8 {
    // SAFETY: as said in `raw.rs`.
    unsafe {
        c::musgarento_restore(
            card.as_mut_ptr(),
            card.len(),
            table.as_mut_ptr(),
            table.len(),
            pending.as_mut_ptr(),
            pending.len(),
            image.as_ptr(),
            image.len(),
        )
    }
}
