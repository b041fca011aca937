//! The checks at start, in their order, and the shape of the card they give.

use crate::capability::{
    pending_bytes, table_bytes, walk, List, Msi, MsiX, Region, MSIX_BYTES, MSIX_ID, MSI_ID,
};

/// What a card's numbers and the bits that no write changes say about it.
#[derive(Clone, Copy, Debug)]
pub struct Shape {
    pub pin: u8,
    pub msi: Option<Msi>,
    pub msix: Option<MsiX>,
    pub events: u16,
    pub requester: u16,
}

impl Shape {
    // 01: "N is MSI-X Table Size + 1, or 0 with no MSI-X."
    /// N, the number of MSI-X vectors.
    pub fn vectors(&self) -> usize {
        self.msix.map_or(0, |msix| msix.vectors)
    }

    // 01, no. 17: "table buffer not 16N bytes, or pending buffer not
    // 8 x (N/64 rounded up) bytes"
    /// Whether the lent buffers have the right lengths.
    pub fn buffers_fit(&self, table: &[u8], pending: &[u8]) -> bool {
        table.len() == table_bytes(self.vectors()) && pending.len() == pending_bytes(self.vectors())
    }
}

/// The checks 10 to 16, in their order; `Err` is the number of the refusal.
pub fn check_shape(
    config: &[u8; 256],
    sizes: &[u32; 6],
    events: u64,
    requester: u64,
) -> Result<Shape, u8> {
    // 01, no. 10: "byte 0Eh low seven bits not 0, or pin (3Dh) above 4"
    if config[0x0E] & 0x7F != 0 || config[0x3D] > 4 {
        return Err(10);
    }
    // 01, no. 11: "list broken"
    let list = walk(config).ok_or(11)?;
    // 01, no. 12: "ID 05h or 11h listed twice"
    let msi_at = at_most_one(config, &list, MSI_ID)?;
    let msix_at = at_most_one(config, &list, MSIX_ID)?;
    let msi = msi_at.map(|at| Msi::read(config, at));
    if !structures_accepted(&list, msi.as_ref(), msix_at) {
        return Err(13);
    }
    let msix = msix_at.map(|at| MsiX::read(config, at));
    if !msix.is_none_or(|msix| regions_accepted(&msix, sizes)) {
        return Err(14);
    }
    let events = accepted_events(events, msix.as_ref()).ok_or(15)?;
    let requester = accepted_requester(requester).ok_or(16)?;
    Ok(Shape {
        pin: config[0x3D],
        msi,
        msix,
        events,
        requester,
    })
}

/// Check 15: the number of events.
fn accepted_events(events: u64, msix: Option<&MsiX>) -> Option<u16> {
    // 01, no. 15: "E not 1 to 2,048, or MSI-X present and N not E"
    let events = u16::try_from(events).ok()?;
    let accepted =
        (1..=2048).contains(&events) && msix.is_none_or(|msix| msix.vectors == usize::from(events));
    accepted.then_some(events)
}

/// Check 16: the requester ID.
fn accepted_requester(requester: u64) -> Option<u16> {
    // C interface: a requester ID is a 16-bit number, and a wider one is
    // refused with 16.
    let requester = u16::try_from(requester).ok()?;
    // 01, no. 16: "requester's low three bits not 0"
    (requester & 7 == 0).then_some(requester)
}

/// The place of the one capability with this ID, if it is listed.
fn at_most_one(config: &[u8; 256], list: &List, id: u8) -> Result<Option<usize>, u8> {
    let mut places = list.with_id(config, id);
    let first = places.next();
    if places.next().is_some() {
        return Err(12);
    }
    Ok(first)
}

/// Check 13: the structures' places.
fn structures_accepted(list: &List, msi: Option<&Msi>, msix_at: Option<usize>) -> bool {
    // 01, no. 13: "Multiple Message Capable above 5"
    if msi.is_some_and(|msi| msi.capable > 5) {
        return false;
    }
    let msi_place = msi.map(|msi| (msi.at, msi.at + msi.bytes()));
    let msix_place = msix_at.map(|at| (at, at + MSIX_BYTES));
    // 01, no. 13: "overlaps the other one"
    if let (Some(a), Some(b)) = (msi_place, msix_place) {
        if a.0 < b.1 && b.0 < a.1 {
            return false;
        }
    }
    msi_place.is_none_or(|place| structure_accepted(list, place))
        && msix_place.is_none_or(|place| structure_accepted(list, place))
}

/// Check 13 for one structure by itself, from its first byte to its end.
fn structure_accepted(list: &List, (start, end): (usize, usize)) -> bool {
    // 01, no. 13: "or a structure runs past byte FFh"
    if end > 256 {
        return false;
    }
    // 01, no. 13: "or has another listed header's first two bytes inside it"
    list.places()
        .all(|at| at == start || at >= end || at + 2 <= start)
}

/// Check 14: the places of the table and of the pending array.
fn regions_accepted(msix: &MsiX, sizes: &[u32; 6]) -> bool {
    // 01, no. 14: "a BIR above 5; table (16N bytes) or pending array past its
    // BAR's size"
    let fits = |region: &Region| match sizes.get(usize::from(region.bar)) {
        Some(&size) => region.end() <= u64::from(size),
        None => false,
    };
    // 01, no. 14: "or the two overlapping in one BAR"
    fits(&msix.table) && fits(&msix.pending) && !msix.table.overlaps(&msix.pending)
}
