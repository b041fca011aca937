//! A card with 32-bit MSI data, MSI control bits 9 and 10, through [`Card`].

use musgarento::{Answer, Card, Packet, Packets, Start};

const COMMAND: u16 = 0x04;
const MSI: u16 = 0x50;
/// MSI control bits 9 and 10, Extended Message Data Capable and Enable.
const CAPABLE: u16 = 1 << 9;
const ENABLE: u16 = 1 << 10;
/// The control words of the four forms, Multiple Message Capable 2.
const FORMS: [u16; 4] = [0x004, 0x084, 0x104, 0x184];
/// Where an image has the configuration.
const IMAGE_CONFIG: usize = 38;

const MESSAGE: [u8; 16] = [
    0x40, 0x00, 0x00, 0x01, 0x01, 0x00, 0x00, 0x0F, 0xFE, 0xE0, 0x00, 0x00, 0xA1, 0x49, 0xCD, 0xAB,
];
/// The same with an upper half of 0.
const NARROW: [u8; 16] = [
    0x40, 0x00, 0x00, 0x01, 0x01, 0x00, 0x00, 0x0F, 0xFE, 0xE0, 0x00, 0x00, 0xA1, 0x49, 0x00, 0x00,
];

/// The place of the data register in the form of this control word.
fn data_at(control: u16) -> u16 {
    MSI + if control & 0x80 == 0 { 0x08 } else { 0x0C }
}

/// A card with this MSI control word, whose supplier gave the data register and
/// the 16 bits after it as A5A5A5A5h.
fn start(control: u16) -> Card {
    let mut config = [0; 256];
    config[0x06] = 0x10;
    config[0x34] = MSI as u8;
    let at = usize::from(MSI);
    config[at] = 0x05;
    config[at + 2..at + 4].copy_from_slice(&control.to_le_bytes());
    config[usize::from(data_at(control))..][..4].fill(0xA5);
    let start = Start {
        config,
        sizes: [0; 6],
        events: 4,
        requester: 0x0100,
    };
    Card::start(&start).unwrap()
}

/// Makes a configuration write that sends nothing.
fn write(card: &mut Card, offset: u16, width: u8, value: u32) {
    assert_eq!(card.config_write(offset, width, value).unwrap().count(), 0);
}

/// Turns on bus mastering and MSI with four vectors and these further control
/// bits, with address FEE00000h and data ABCD49A3h.
fn configure(card: &mut Card, control: u16, more: u16) {
    write(card, COMMAND, 2, 4);
    write(card, MSI + 4, 4, 0xFEE0_0000);
    write(card, data_at(control), 4, 0xABCD_49A3);
    write(card, MSI + 2, 2, u32::from(1 | 2 << 4 | more));
}

fn sent(card: &mut Card, number: u16) -> Vec<u8> {
    let event = card.event(number).unwrap();
    assert_eq!(event.answer, Answer::Sent);
    event.packets.bytes().to_vec()
}

/// The control register, and the data register with the 16 bits after it.
fn registers(card: &Card, control: u16) -> (u16, u32) {
    let read = |offset, width| card.config_read(offset, width).unwrap();
    (read(MSI + 2, 2) as u16, read(data_at(control), 4))
}

#[test]
fn messages_of_both_widths() {
    for form in FORMS {
        let control = form | CAPABLE;
        let mut card = start(control);
        configure(&mut card, control, ENABLE);
        let bytes = sent(&mut card, 1);
        assert_eq!(bytes, MESSAGE);
        let message = Packet::Message {
            requester: 0x0100,
            address: 0xFEE0_0000,
            data: 0xABCD_49A1,
        };
        assert_eq!(Packets::new(&bytes).collect::<Vec<_>>(), [message]);
        configure(&mut card, control, 0);
        assert_eq!(registers(&card, control), (control | 0x21, 0xABCD_49A3));
        assert_eq!(sent(&mut card, 1), NARROW);
    }
}

#[test]
fn message_above_4_gib() {
    for form in [FORMS[1], FORMS[3]] {
        let mut card = start(form | CAPABLE);
        configure(&mut card, form, ENABLE);
        write(&mut card, MSI + 8, 4, 1);
        let bytes = sent(&mut card, 2);
        assert_eq!((bytes.len(), bytes[0]), (20, 0x60));
        assert_eq!(bytes[16..], [0xA2, 0x49, 0xCD, 0xAB]);
    }
}

#[test]
fn waiting_message() {
    for form in FORMS {
        let mut card = start(form | CAPABLE);
        configure(&mut card, form, 0);
        write(&mut card, COMMAND, 2, 0);
        assert_eq!(card.event(1).unwrap().answer, Answer::Held);
        write(&mut card, MSI + 3, 1, u32::from(ENABLE >> 8));
        let packets = card.config_write(COMMAND, 2, 4).unwrap();
        assert_eq!(packets.bytes(), MESSAGE);
    }
}

#[test]
fn start_and_reset_with_bit_9() {
    for form in FORMS {
        let control = form | CAPABLE;
        let fresh = start(control | ENABLE);
        assert_eq!(registers(&fresh, control), (control, 0));
        let mut card = fresh.clone();
        configure(&mut card, control, ENABLE);
        assert_eq!(card.reset().count(), 0);
        assert_eq!(card, fresh);
    }
}

#[test]
fn without_bit_9() {
    for form in FORMS {
        for given in [0, ENABLE] {
            let control = form | given;
            let fresh = start(control);
            assert_eq!(registers(&fresh, control), (control, 0xA5A5_0000));
            let mut card = fresh.clone();
            configure(&mut card, control, ENABLE);
            assert_eq!(registers(&card, control), (control | 0x21, 0xA5A5_49A3));
            assert_eq!(sent(&mut card, 1), NARROW);
            assert_eq!(card.reset().count(), 0);
            assert_eq!(card, fresh);
        }
    }
}

#[test]
fn saved_and_restored() {
    for form in FORMS {
        let control = form | CAPABLE;
        let mut card = start(control);
        configure(&mut card, control, ENABLE);
        let image = card.save();
        let mut again = Card::from_image(&image).unwrap();
        assert_eq!(again, card);
        assert_eq!(sent(&mut again, 1), MESSAGE);
        let mut other = start(control);
        other.restore(&image).unwrap();
        assert_eq!(other, card);
        assert_eq!(sent(&mut other, 1), MESSAGE);
    }
}

/// An image in which bit 10 and the upper half stand as a supplier gave them.
#[test]
fn image_as_the_supplier_gave_it() {
    for form in FORMS {
        let control = form | CAPABLE;
        let mut card = start(control);
        configure(&mut card, control, 0);
        let mut image = card.save();
        image[IMAGE_CONFIG + usize::from(MSI) + 3] |= (ENABLE >> 8) as u8;
        image[IMAGE_CONFIG + usize::from(data_at(control)) + 2..][..2].fill(0xA5);
        card.restore(&image).unwrap();
        assert_eq!(card.save(), image);
        assert_eq!(sent(&mut card, 1)[12..], [0xA1, 0x49, 0xA5, 0xA5]);
        assert_eq!(card.reset().count(), 0);
        assert_eq!(card, start(control));
    }
}
