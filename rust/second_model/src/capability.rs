//! The capability list and the MSI and MSI-X structures in it.

/// Capability ID of MSI.
pub const MSI_ID: u8 = 0x05;
/// Capability ID of MSI-X.
pub const MSIX_ID: u8 = 0x11;
// 01: "MSI-X takes 12 bytes."
pub const MSIX_BYTES: usize = 12;
// 01: "a 49th capability, is a broken list"
const MOST: usize = 48;

/// The places of the listed capabilities, in the order of the list.
pub struct List {
    at: [u8; MOST],
    count: usize,
}

impl List {
    /// The places of all listed capabilities.
    pub fn places(&self) -> impl Iterator<Item = usize> + '_ {
        self.at[..self.count].iter().map(|&at| usize::from(at))
    }

    /// The places of the capabilities with this ID.
    pub fn with_id<'a>(
        &'a self,
        config: &'a [u8; 256],
        id: u8,
    ) -> impl Iterator<Item = usize> + 'a {
        self.places().filter(move |&at| config[at] == id)
    }
}

/// Walks the capability list; `None` is a broken list.
pub fn walk(config: &[u8; 256]) -> Option<List> {
    let mut list = List {
        at: [0; MOST],
        count: 0,
    };
    // 01: "If Status bit 4 (byte 06h) is 0 there is no list."
    if config[0x06] & 0x10 == 0 {
        return Some(list);
    }
    // 01: "Else walk from byte 34h, ignoring the low two bits of each pointer."
    let mut pointer = config[0x34] & 0xFC;
    // 01: "What is left decides: 0 ends; 04h to 3Ch, or a 49th capability, is
    // a broken list."
    while pointer != 0 {
        if pointer <= 0x3C || list.count == MOST {
            return None;
        }
        list.at[list.count] = pointer;
        list.count += 1;
        pointer = config[usize::from(pointer) + 1] & 0xFC;
    }
    Some(list)
}

/// Where one form of the MSI capability has its fields, and its length.
#[derive(Debug)]
pub struct Form {
    pub upper: Option<usize>,
    pub data: usize,
    /// Offsets of the Mask and the Pending register.
    pub masks: Option<(usize, usize)>,
    bytes: usize,
    /// The length with Extended Message Data Capable.
    extended_bytes: usize,
}

// 01: the table below "The four forms of the MSI capability place fields so",
// and "Address is at 04h, upper address at 08h in the 64-bit forms."
// 02: "With bit 9 the unmasked forms hold 12 and 16 bytes"
static FORMS: [Form; 4] = [
    Form {
        upper: None,
        data: 0x08,
        masks: None,
        bytes: 10,
        extended_bytes: 12,
    },
    Form {
        upper: Some(0x08),
        data: 0x0C,
        masks: None,
        bytes: 14,
        extended_bytes: 16,
    },
    Form {
        upper: None,
        data: 0x08,
        masks: Some((0x0C, 0x10)),
        bytes: 20,
        extended_bytes: 20,
    },
    Form {
        upper: Some(0x08),
        data: 0x0C,
        masks: Some((0x10, 0x14)),
        bytes: 24,
        extended_bytes: 24,
    },
];

/// An MSI capability.
#[derive(Clone, Copy, Debug)]
pub struct Msi {
    pub at: usize,
    /// Multiple Message Capable, control bits 3:1.
    pub capable: u32,
    pub form: &'static Form,
    /// Extended Message Data Capable, control bit 9.
    pub extended_capable: bool,
}

impl Msi {
    /// Reads the fixed fields of the MSI capability at `at`.
    pub fn read(config: &[u8; 256], at: usize) -> Msi {
        let control = u16::from_le_bytes([config[at + 2], config[at + 3]]);
        // 01: "Control bit 7 says 64-bit, bit 8 says masks."
        let form = &FORMS[usize::from(control >> 7 & 3)];
        Msi {
            at,
            capable: u32::from(control >> 1 & 7),
            form,
            // 02: "MSI control bit 9, Extended Message Data Capable"
            extended_capable: control & 1 << 9 != 0,
        }
    }

    /// The length of the structure.
    pub fn bytes(&self) -> usize {
        if self.extended_capable {
            self.form.extended_bytes
        } else {
            self.form.bytes
        }
    }

    /// The vectors below 2^Capable, as bits.
    pub fn capable_bits(&self) -> u32 {
        bits_below(1 << self.capable)
    }
}

/// The low `count` bits of a 32-bit word.
pub fn bits_below(count: u32) -> u32 {
    if count >= 32 {
        u32::MAX
    } else {
        (1 << count) - 1
    }
}

/// A stretch of bytes in one BAR.
#[derive(Clone, Copy, Debug)]
pub struct Region {
    pub bar: u8,
    pub offset: u64,
    pub bytes: u64,
}

impl Region {
    /// Reads a word with the BIR in bits 2:0 and the offset in the others.
    fn read(config: &[u8; 256], at: usize, bytes: usize) -> Region {
        let word = word_at(config, at);
        Region {
            bar: (word & 7) as u8,
            offset: u64::from(word & !7),
            bytes: bytes as u64,
        }
    }

    /// The first byte behind the region.
    pub fn end(&self) -> u64 {
        self.offset + self.bytes
    }

    /// Whether both regions have a byte in common.
    pub fn overlaps(&self, other: &Region) -> bool {
        self.bar == other.bar && self.offset < other.end() && other.offset < self.end()
    }

    /// How far into the region the access starts, if it lies in the region.
    pub fn place(&self, bar: u64, offset: u64, width: u64) -> Option<usize> {
        let at = offset.checked_sub(self.offset)?;
        if bar == u64::from(self.bar) && at < self.bytes && width <= self.bytes - at {
            usize::try_from(at).ok()
        } else {
            None
        }
    }
}

/// An MSI-X capability.
#[derive(Clone, Copy, Debug)]
pub struct MsiX {
    pub at: usize,
    /// N, the number of vectors.
    pub vectors: usize,
    pub table: Region,
    pub pending: Region,
}

impl MsiX {
    /// Reads the fixed fields of the MSI-X capability at `at`, which must not
    /// run past byte FFh.
    pub fn read(config: &[u8; 256], at: usize) -> MsiX {
        let vectors = vectors_at(config, at);
        MsiX {
            at,
            vectors,
            table: Region::read(config, at + 4, table_bytes(vectors)),
            pending: Region::read(config, at + 8, pending_bytes(vectors)),
        }
    }
}

// 01: "N is MSI-X Table Size + 1, or 0 with no MSI-X."
/// N by the MSI-X capability at `at`. Its control register is in the
/// configuration even if the structure runs past byte FFh.
pub fn vectors_at(config: &[u8; 256], at: usize) -> usize {
    let control = u16::from_le_bytes([config[at + 2], config[at + 3]]);
    usize::from(control & 0x7FF) + 1
}

// 01: "table (16N bytes)"
/// The length of a table of `vectors` entries.
pub fn table_bytes(vectors: usize) -> usize {
    16 * vectors
}

// 01: "8 x (N/64 rounded up) bytes"
/// The length of a pending array of `vectors` bits.
pub fn pending_bytes(vectors: usize) -> usize {
    8 * vectors.div_ceil(64)
}

/// The little-endian word at `at`.
pub fn word_at(bytes: &[u8], at: usize) -> u32 {
    u32::from_le_bytes([bytes[at], bytes[at + 1], bytes[at + 2], bytes[at + 3]])
}
