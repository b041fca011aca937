//! The functions of a switch.

mod c {
    extern "C" {
        pub fn musgarento_switch_start(state: *mut u8, state_len: usize, requester: u64) -> u8;
        pub fn musgarento_switch_packet(
            state: *mut u8,
            state_len: usize,
            port: u64,
            packet: *const u8,
            packet_len: usize,
            out: *mut u8,
            out_len: usize,
            count: *mut usize,
        ) -> u8;
        pub fn musgarento_switch_down(
            state: *mut u8,
            state_len: usize,
            port: u64,
            out: *mut u8,
            out_len: usize,
            count: *mut usize,
        ) -> u8;
    }
}

/// Starts a switch, over bytes of any contents.
pub fn switch_start(switch: &mut [u8], requester: u64) -> u8 {
    // SAFETY: as said in `raw.rs`.
    unsafe { c::musgarento_switch_start(switch.as_mut_ptr(), switch.len(), requester) }
}

/// Takes a packet from the card at a port.
pub fn switch_packet(
    switch: &mut [u8],
    port: u64,
    packet: &[u8],
    out: &mut [u8],
    count: &mut usize,
) -> u8 {
    // SAFETY: as said in `raw.rs`.
    unsafe {
        c::musgarento_switch_packet(
            switch.as_mut_ptr(),
            switch.len(),
            port,
            packet.as_ptr(),
            packet.len(),
            out.as_mut_ptr(),
            out.len(),
            count,
        )
    }
}

/// A port goes down.
pub fn switch_down(switch: &mut [u8], port: u64, out: &mut [u8], count: &mut usize) -> u8 {
    // SAFETY: as said in `raw.rs`.
    unsafe {
        c::musgarento_switch_down(
            switch.as_mut_ptr(),
            switch.len(),
            port,
            out.as_mut_ptr(),
            out.len(),
            count,
        )
    }
}
