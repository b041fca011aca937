//! The functions that read lengths and packets.

mod c {
    extern "C" {
        pub fn musgarento_config_lengths(
            config: *const u8,
            config_len: usize,
            vectors: *mut usize,
            table_len: *mut usize,
            pending_len: *mut usize,
        ) -> u8;
        pub fn musgarento_image_lengths(
            image: *const u8,
            image_len: usize,
            vectors: *mut usize,
            table_len: *mut usize,
            pending_len: *mut usize,
        ) -> u8;
        pub fn musgarento_packet(
            packets: *const u8,
            packets_len: usize,
            count: *mut usize,
            kind: *mut u8,
            requester: *mut u16,
            address: *mut u64,
            data: *mut u32,
            pin: *mut u8,
            level: *mut u8,
        ) -> u8;
    }
}

/// The kind of a message.
pub const PACKET_MESSAGE: u8 = 1;

/// The kind of an Assert or Deassert.
pub const PACKET_WIRE: u8 = 2;

/// The number of MSI-X vectors of a configuration, and the lengths of table and
/// pending array that its start asks for.
pub fn config_lengths(
    config: &[u8],
    vectors: &mut usize,
    table_len: &mut usize,
    pending_len: &mut usize,
) -> u8 {
    // SAFETY: as said in `raw.rs`.
    unsafe {
        c::musgarento_config_lengths(
            config.as_ptr(),
            config.len(),
            vectors,
            table_len,
            pending_len,
        )
    }
}

/// The same of an image.
pub fn image_lengths(
    image: &[u8],
    vectors: &mut usize,
    table_len: &mut usize,
    pending_len: &mut usize,
) -> u8 {
    // SAFETY: as said in `raw.rs`.
    unsafe {
        c::musgarento_image_lengths(image.as_ptr(), image.len(), vectors, table_len, pending_len)
    }
}

/// Reads the first of the packets that stand one after another.
pub fn packet(
    packets: &[u8],
    count: &mut usize,
    kind: &mut u8,
    requester: &mut u16,
    address: &mut u64,
    data: &mut u32,
    pin: &mut u8,
    level: &mut u8,
) -> u8 {
    // SAFETY: as said in `raw.rs`.
    unsafe {
        c::musgarento_packet(
            packets.as_ptr(),
            packets.len(),
            count,
            kind,
            requester,
            address,
            data,
            pin,
            level,
        )
    }
}
