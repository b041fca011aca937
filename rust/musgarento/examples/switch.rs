//! A trial of three cards behind one switch, all with pin 1. The pulse cards at
//! ports 0 and 4 share INTA, which stays active until both lines are low. The
//! sonic card at port 1 has INTB; its message passes. A port that goes down
//! drops its wire.

use musgarento::{Card, Packets, PortError, Refusal, Start, Switch};

/// Where the sonic card has its MSI-X capability and pending array.
const MSIX: usize = 0x40;
const PENDING_AT: u32 = 0x800;

const CHANNELS: u16 = 4;
const CHANNEL: u16 = 2;

/// A card at a port of the switch.
struct Slot {
    name: &'static str,
    port: u8,
    card: Card,
}

/// A card with these configuration bytes and pin 1, alone on a bus of its own.
fn started(port: u8, mut config: [u8; 256], events: u16) -> Result<Card, Refusal> {
    config[0x3D] = 1;
    Ok(Card::start(&Start {
        config,
        sizes: [0x1000; 6],
        events,
        requester: (3 + u16::from(port)) << 8,
    })?)
}

/// A card that raises its wire.
fn pulse(port: u8) -> Result<Slot, Refusal> {
    let (name, card) = ("pulse card", started(port, [0; 256], 1)?);
    Ok(Slot { name, port, card })
}

/// A card that can send messages, with the channel's entry written.
fn sonic(port: u8) -> Result<Slot, Refusal> {
    let mut config = [0; 256];
    config[0x06] = 0x10; // Status: there is a capability list.
    config[0x34] = MSIX as u8;
    config[MSIX] = 0x11;
    config[MSIX + 2..MSIX + 4].copy_from_slice(&(CHANNELS - 1).to_le_bytes());
    config[MSIX + 8..MSIX + 12].copy_from_slice(&PENDING_AT.to_le_bytes());
    let (name, mut card) = ("sonic card", started(port, config, CHANNELS)?);
    card.config_write(0x04, 2, 0x0006)?;
    card.bar_write(0, 16 * u32::from(CHANNEL), 8, 0x1_FEE0_1000)?;
    card.bar_write(0, 16 * u32::from(CHANNEL) + 8, 8, 0x42)?;
    Ok(Slot { name, port, card })
}

/// Prints each packet.
fn show(from: &str, packets: Packets<'_>) {
    if packets.bytes().is_empty() {
        println!("    {from} sends nothing");
    }
    for packet in packets {
        println!("    {from} sends {packet}");
    }
}

/// Prints what the card at a port sends, and what goes upstream.
fn pass(switch: &mut Switch, port: u8, packets: Packets<'_>) -> Result<(), PortError> {
    show("card  ", packets.clone());
    for packet in packets.slices() {
        show("switch", switch.packet(port, packet)?);
    }
    Ok(())
}

/// Sets the line of a card.
fn line(switch: &mut Switch, slot: &mut Slot, high: bool) -> Result<(), PortError> {
    let level = if high { "high" } else { "low" };
    println!("Port {}, {}: line {level}", slot.port, slot.name);
    pass(switch, slot.port, slot.card.line(high))
}

/// Brings MSI-X into force on the sonic card.
fn msix_on(switch: &mut Switch, slot: &mut Slot) -> Result<(), Refusal> {
    println!("Port {}, {}: MSI-X on", slot.port, slot.name);
    let packets = slot.card.config_write(MSIX as u16 + 2, 2, 0x8000)?;
    Ok(pass(switch, slot.port, packets)?)
}

/// Makes an event of the sonic card's channel.
fn event(switch: &mut Switch, slot: &mut Slot) -> Result<(), Refusal> {
    println!("Port {}, {}: event {CHANNEL}", slot.port, slot.name);
    let event = slot.card.event(CHANNEL)?;
    Ok(pass(switch, slot.port, event.packets)?)
}

/// A port goes down.
fn down(switch: &mut Switch, port: u8) -> Result<(), PortError> {
    println!("Port {port} goes down");
    show("switch", switch.down(port)?);
    Ok(())
}

fn main() -> Result<(), Refusal> {
    let mut switch = Switch::new(0x0100);
    let (mut first, mut second) = (pulse(0)?, pulse(4)?);
    let mut sonic = sonic(1)?;

    line(&mut switch, &mut first, true)?;
    line(&mut switch, &mut second, true)?;
    line(&mut switch, &mut first, false)?;
    line(&mut switch, &mut second, false)?;

    line(&mut switch, &mut sonic, true)?;
    msix_on(&mut switch, &mut sonic)?;
    event(&mut switch, &mut sonic)?;

    line(&mut switch, &mut second, true)?;
    down(&mut switch, 4)?;
    line(&mut switch, &mut second, false)?;
    Ok(())
}
