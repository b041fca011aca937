//! A trial of the sonic head's card: a channel is masked, its interrupt waits,
//! the card is saved and restored, and the interrupt is sent when the channel
//! is unmasked.

use musgarento::{BarError, Card, EventError, Packets, Refusal, Start};

/// Where the card has its MSI-X capability, table and pending array.
const MSIX: usize = 0x40;
const BAR: u8 = 0;
const PENDING_AT: u32 = 0x800;

const CHANNELS: u16 = 4;
const CHANNEL: u16 = 3;

/// The configuration bytes of a card with an MSI-X vector for each channel.
fn configuration() -> [u8; 256] {
    let mut config = [0; 256];
    config[0x06] = 0x10; // Status: there is a capability list.
    config[0x34] = MSIX as u8;
    config[0x3D] = 1; // INTA
    config[MSIX] = 0x11;
    config[MSIX + 2..MSIX + 4].copy_from_slice(&(CHANNELS - 1).to_le_bytes());
    config[MSIX + 8..MSIX + 12].copy_from_slice(&(PENDING_AT | u32::from(BAR)).to_le_bytes());
    config
}

/// Says what was done and prints each packet.
fn show(done: &str, packets: Packets<'_>) {
    println!("{done}");
    if packets.bytes().is_empty() {
        println!("    sends nothing");
    }
    for (packet, bytes) in packets.clone().zip(packets.slices()) {
        let hex: Vec<String> = bytes.iter().map(|byte| format!("{byte:02X}")).collect();
        println!("    sends {packet}");
        println!("          {}", hex.join(" "));
    }
}

/// Makes an event of the channel and prints what became of it.
fn show_event(card: &mut Card) -> Result<(), EventError> {
    let event = card.event(CHANNEL)?;
    let done = format!("Event of channel {CHANNEL}: {:?}", event.answer);
    show(&done, event.packets);
    Ok(())
}

/// Sets or clears the mask bit of the channel's table entry.
fn show_mask(card: &mut Card, mask: bool) -> Result<(), BarError> {
    let control = 16 * u32::from(CHANNEL) + 12;
    let done = format!("Mask bit of channel {CHANNEL} := {}", u8::from(mask));
    show(&done, card.bar_write(BAR, control, 4, u64::from(mask))?);
    Ok(())
}

/// Prints the first word of the pending array.
fn show_pending(card: &Card) -> Result<(), BarError> {
    let bits = card.bar_read(BAR, PENDING_AT, 8)?;
    println!("    pending array: {bits:04b}");
    Ok(())
}

fn main() -> Result<(), Refusal> {
    let mut card = Card::start(&Start {
        config: configuration(),
        sizes: [0x1000; 6],
        events: CHANNELS,
        requester: 0x0100,
    })?;
    println!("Start of a card with {} MSI-X vectors", card.vectors());

    show(
        "Command := memory space and bus mastering",
        card.config_write(0x04, 2, 0x0006)?,
    );
    let entry = 16 * u32::from(CHANNEL);
    show(
        "Table entry 3 := address 1_FEE01000h",
        card.bar_write(BAR, entry, 8, 0x1_FEE0_1000)?,
    );
    show(
        "Table entry 3 := data 31h, mask bit 0",
        card.bar_write(BAR, entry + 8, 8, 0x31)?,
    );
    show("MSI-X on", card.config_write(MSIX as u16 + 2, 2, 0x8000)?);

    show_event(&mut card)?;
    show_mask(&mut card, true)?;
    show_event(&mut card)?;
    show_event(&mut card)?;
    show_pending(&card)?;

    let image = card.save();
    println!("Save: an image of {} bytes", image.len());
    show("Reset: nothing waits any more", card.reset());
    card.restore(&image)?;
    println!("Restore of the image");
    show_pending(&card)?;

    show_mask(&mut card, false)?;
    show_pending(&card)?;
    Ok(())
}
