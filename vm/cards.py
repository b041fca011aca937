"""The cards of the trial, as their 256 configuration bytes.

All have pin 1 and 32 MSI vectors. The first also has 64 MSI-X vectors, and power management and PCIe with a function level
reset. They differ in the form of their MSI capability: data at 08h or 0Ch, mask bits or none.
"""

VENDOR, DEVICE = 0x16C3, 0xEDDA  # Linux's pci_endpoint_test takes them
MSI, MSIX, POWER, EXPRESS = 0x50, 0x70, 0x40, 0x80
TABLE_BAR, PENDING_AT = 2, 0x800
EVENTS = 64
BAR_SIZES = {0: 4096, TABLE_BAR: 4096}


def put(config, at, width, value):
    config[at:at + width] = value.to_bytes(width, "little")


def add(config, last, at, identity):
    """Lists a capability behind the one whose pointer is at `last`; gives the place of its own pointer."""
    config[last] = at
    config[at] = identity
    return at + 1


def card(wide, masks, whole):
    config = bytearray(256)
    put(config, 0x00, 2, VENDOR)
    put(config, 0x02, 2, DEVICE)
    put(config, 0x0A, 2, 0xFF00)  # class: others
    config[0x06] = 0x10           # there is a capability list
    config[0x3D] = 1              # INTA
    last = add(config, 0x34, MSI, 0x05)
    put(config, MSI + 2, 2, 5 << 1 | wide << 7 | masks << 8)
    if whole:
        last = add(config, last, MSIX, 0x11)
        put(config, MSIX + 2, 2, EVENTS - 1)
        put(config, MSIX + 4, 4, TABLE_BAR)
        put(config, MSIX + 8, 4, PENDING_AT | TABLE_BAR)
        last = add(config, last, POWER, 0x01)
        put(config, POWER + 2, 2, 3)
        last = add(config, last, EXPRESS, 0x10)
        put(config, EXPRESS + 2, 2, 0x0092)  # version 2, integrated endpoint
        put(config, EXPRESS + 4, 4, 1 << 28 | 1 << 15)
    return bytes(config)


# name, configuration bytes; the place in this list is the number of Linux's device, and its slot is 3 more
CARDS = [
    ("64-bit with masks, and MSI-X", card(1, 1, True)),
    ("32-bit", card(0, 0, False)),
    ("64-bit", card(1, 0, False)),
    ("32-bit with masks", card(0, 1, False)),
]
