"""A technician at the bench, and what a driver sees of messages and memory."""
import os
import re

import cards
from checks.common import WAITING, comes_once, expect, has, not_missed, quiet_card, waiting
from checks.driver import pin_test
from checks.logs import part_plays
from machine import HERE, ROOM, Failure

IMAGE_CONFIG = 38  # where an image has the configuration bytes
IMAGE_PENDING = 294 + 16 * cards.EVENTS  # and the pending array
EVENT_REFUSED = "refused with 2: event number E or more"
PIN_REFUSED = "refused with 7: withdrawal while the pin is in force"


def resource(machine, number, bar):
    """Where the guest has a BAR."""
    said, _ = machine.run("sed -n %dp /sys/bus/pci/devices/0000:00:%02x.0/resource" % (bar + 1, 3 + number))
    return int(said.split()[0], 16)


def devmem(machine, address, width, value=""):
    said, status = machine.run("devmem 0x%x %d %s" % (address, width, value))
    expect("status of devmem, " + said, status, 0)
    return int(said, 16) if said else None


def plain_memory(machine):
    """A BAR without table is memory, filled from its file; beside table and pending array it is memory, too."""
    plain = resource(machine, 3, 2)
    for width, found in ((8, 0x38), (16, 0x3938), (32, 0x3B3A3938), (64, 0x3F3E3D3C3B3A3938)):
        expect("%d bits" % width, devmem(machine, plain + 0x338, width), found)
    table = resource(machine, 0, 2)
    for address in (plain + 0x10, table + 0xC00):
        devmem(machine, address, 32, "0x12345678")
        devmem(machine, address + 1, 8, "0xAB")
        expect("memory", devmem(machine, address, 32), 0x1234AB78)
    expect("mask bit of vector 0", devmem(machine, table + 12, 32), 1)
    expect("one byte of the table", devmem(machine, table + 12, 8), 0xFF)
    devmem(machine, table + 12, 8, "0")
    expect("mask bit of vector 0", devmem(machine, table + 12, 32), 1)


def at_a_rate(machine):
    machine.act("msix 64")
    has("rate", machine.tell("rate 20000"), "rate 20000")
    machine.run("usleep 100000")
    has("rate", machine.tell("rate 0"), "rate 0")
    said = not_missed(machine.act("missed"))
    if int(re.search(r"of (\d+)", said).group(1)) < 1000:
        raise Failure("too few came: " + said)
    return said


def held_over_mask(machine):
    quiet_card(machine, [3, 9])
    has("event again", machine.tell("event 3"), ": merged")
    expect("waiting", waiting(machine), "3 9")
    comes_once(machine, [3, 9])


def message_test(machine, number):
    said = machine.act("messages %d" % number)
    where = "above" if cards.CARDS[number][0].startswith("64") else "below"
    expect("driver", said, "0 of 32 messages wrong, %s 4 GiB" % where)
    return said


def decoded(machine):
    machine.act("msix 64")
    said = machine.tell("event 5")
    has("answer", said, "event 5: sent\n    message of data ")
    has("requester", said, ", from 00:03.0")
    machine.act("pin")
    has("line high", machine.tell("line 1"), "line 1: accepted\n    Assert_INTA, from 00:03.0")
    has("line low", machine.tell("line 0"), "line 0: accepted\n    Deassert_INTA, from 00:03.0")
    has("event", machine.tell("event 5"), "event 5: lost")


def refused_lines(machine):
    before = machine.tell("show")
    has("number too high", machine.tell("event 64"), EVENT_REFUSED)
    for line in ("bogus", "event", "event x", "event 3 4", "line 2", "reset now", "", "show all", "withdraw", "withdraw x"):
        has(line, machine.tell(line), "no command: " + line)
    has("no file", machine.tell("restore %s/none" % ROOM), "No such file")
    has("no folder", machine.tell("save %s/none/x" % ROOM), "No such file")
    expect("card", machine.tell("show").split("\n")[:3], before.split("\n")[:3])


def damage(name, at, value):
    with open(name, "r+b") as file:
        file.seek(at)
        file.write(bytes([value]))


def damaged_images(machine):
    name = os.path.join(ROOM, "damaged.image")
    before = machine.tell("show").split("\n")[:3]
    for at, number in ((0, 20), (3, 21), (5, 22)):
        has("save", machine.tell("save " + name), "an image of ")
        damage(name, at, 0xFF)
        has("byte %d damaged" % at, machine.tell("restore " + name), "refused with %d: " % number)
    expect("card", machine.tell("show").split("\n")[:3], before)


def other_images(machine):
    """A sound image of another card, with the same lengths: its interrupt pin is another one."""
    name = os.path.join(ROOM, "other.image")
    before = machine.tell("show").split("\n")[:3]
    machine.tell("save " + name)
    damage(name, IMAGE_CONFIG + 0x3D, 2)
    has("restore", machine.tell("restore " + name), "refused: it is another card")
    has("restore", machine.tell("restore " + os.path.join(HERE, "../trials/sonic.card")), "refused with 17: ")
    expect("card", machine.tell("show").split("\n")[:3], before)


def over_save_and_reset(machine):
    name = os.path.join(ROOM, "halfway.image")
    quiet_card(machine, [0, 17, 63])
    machine.ask("stop")
    has("save", machine.tell("save " + name), "an image of 1326 bytes")
    has("reset", machine.tell("reset"), "reset: accepted")
    expect("waiting after the reset", waiting(machine), "none")
    has("restore", machine.tell("restore " + name), "accepted")
    machine.ask("cont")
    expect("waiting", waiting(machine), "0 17 63")
    comes_once(machine, [0, 17, 63])


def wire_over_restore(machine):
    name = os.path.join(ROOM, "active.image")
    machine.act("pin")
    machine.run("rmmod storm; insmod /pci_endpoint_test.ko irq_type=0")
    machine.tell("save " + name)
    machine.ask("stop")
    has("line", machine.tell("line 1"), "Assert_INTA")
    has("restore", machine.tell("restore " + name), "accepted")
    has("wire", machine.tell("show"), "line low, wire inactive")
    machine.ask("cont")
    said = pin_test(machine, 0)
    machine.run("rmmod pci_endpoint_test; insmod /storm.ko")
    return said


def over_mode_change(machine):
    quiet_card(machine, [9])
    machine.act("msi 32")
    machine.act("mask 4")
    has("event", machine.tell("event 4"), ": held")
    has("both wait", machine.tell("show"), "waiting MSI vectors: 4\n%s 9" % WAITING)
    before = int(machine.act("handled 9"))
    machine.act("msix 64")
    expect("interrupts of MSI-X vector 9", int(machine.act("handled 9")) - before, 1)
    has("MSI's still waits", machine.tell("show"), "waiting MSI vectors: 4\n%s none" % WAITING)
    machine.act("msi 32")
    expect("driver", machine.act("missed").split(" of")[0], "missed 0")
    has("nothing waits", machine.tell("show"), "waiting MSI vectors: none\n%s none" % WAITING)


def handled(machine, vectors):
    return [int(machine.act("handled %d" % v)) for v in vectors]


def comes_next(machine, vector):
    """The next event of a vector that was withdrawn is sent, and brings one interrupt."""
    before = handled(machine, [vector])
    has("event", machine.tell("event %d" % vector), "event %d: sent\n" % vector)
    expect("interrupts of vector %d" % vector, handled(machine, [vector]), [before[0] + 1])
    expect("driver", machine.act("missed").split(" of")[0], "missed 0")


def withdrawn(machine):
    """Of two vectors that wait, the one that is withdrawn brings nothing when all is opened."""
    quiet_card(machine, [3, 9])
    has("withdrawal", machine.tell("withdraw 3"), "withdraw 3: was set\n")
    has("again", machine.tell("withdraw 3"), "withdraw 3: was not set\n")
    expect("waiting", waiting(machine), "9")
    before = handled(machine, [3, 9])
    machine.act("open")
    expect("interrupts of vectors 3 and 9", handled(machine, [3, 9]), [before[0], before[1] + 1])
    comes_next(machine, 3)


def withdrawn_in_force(machine):
    """Vector 4 waits in MSI-X and in MSI, which is in force: there alone it is withdrawn."""
    quiet_card(machine, [4])
    machine.act("msi 32")
    machine.act("mask 4")
    has("event", machine.tell("event 4"), ": held")
    has("vector too high", machine.tell("withdraw 32"), "withdraw 32: " + EVENT_REFUSED)
    has("withdrawal", machine.tell("withdraw 4"), "withdraw 4: was set\n")
    has("MSI-X's still waits", machine.tell("show"), "waiting MSI vectors: none\n%s 4" % WAITING)
    before = handled(machine, [4])
    machine.act("open")
    expect("interrupts of MSI vector 4", handled(machine, [4]), before)
    machine.act("msix 64")
    expect("interrupts of MSI-X vector 4", handled(machine, [4]), [before[0] + 1])
    comes_next(machine, 4)


def shown(machine):
    """What `show` says of the card, how many calls were refused, and the part of the recording that is written."""
    said = machine.tell("show")
    refused, name, number = re.search(r", (\d+) of them refused; .* recorded as (\S+), part (\d+)", said).groups()
    return said.split("\n")[:3], int(refused), name if number == "1" else name + "-" + number


def refused_withdrawals(machine):
    quiet_card(machine, [5])
    has("vector too high", machine.tell("withdraw 64"), "withdraw 64: " + EVENT_REFUSED)
    machine.act("pin")
    card, refused, part = shown(machine)
    for vector in (0, 5, 64, 4294967295):
        has("pin in force", machine.tell("withdraw %d" % vector), "withdraw %d: %s" % (vector, PIN_REFUSED))
    expect("card, refusals, recording", shown(machine), (card, refused + 4, part))
    expect("waiting", waiting(machine), "5")
    machine.act("msix 64")
    expect("driver", machine.act("missed").split(" of")[0], "missed 0")


def recorded_withdrawal(machine):
    """The log ends with the card before the withdrawal, and the next part begins with the one behind it."""
    name = os.path.join(ROOM, "before.image")
    quiet_card(machine, [11])
    machine.ask("stop")
    machine.tell("save " + name)
    ended = shown(machine)[2]
    said = machine.tell("withdraw 11")
    begun = shown(machine)[2]
    machine.ask("cont")
    if begun == ended:
        raise Failure("the log of %s goes on" % ended)
    has("answer", said, "withdraw 11: was set\n    recording goes on as %s: a log has no record of a withdrawal" % begun)
    with open(name, "rb") as before, open(begun + ".card", "rb") as behind:
        pairs = enumerate(zip(before.read(), behind.read()))
    expect("change", [(at, *pair) for at, pair in pairs if pair[0] != pair[1]], [(IMAGE_PENDING + 1, 8, 0)])
    machine.act("open")
    comes_next(machine, 11)
    records = part_plays(ended, name)[0], part_plays(begun)[0]
    return "%d and %d records, played again" % records


def bench_tests(trial, machine):
    trial.heading("a technician at the bench")
    trial.check("the storm's driver takes the cards", lambda: expect(
        "status", machine.run("rmmod pci_endpoint_test; insmod /storm.ko"), ("", 0)))
    for number, (name, _) in enumerate(cards.CARDS):
        trial.check("message data and address, card %d (%s)" % (number, name), message_test, machine, number)
    trial.check("BARs beside table and pending array are memory", plain_memory, machine)
    trial.check("answers and packets in words", decoded, machine)
    trial.check("events at a rate", at_a_rate, machine)
    trial.check("lines that are no command, numbers and files that are not there", refused_lines, machine)
    trial.check("damaged images are refused with 20, 21 and 22", damaged_images, machine)
    trial.check("images of other cards are refused", other_images, machine)
    trial.check("an event waits behind a mask, and comes once", held_over_mask, machine)
    trial.check("vectors wait over a save, a reset and a restore", over_save_and_reset, machine)
    trial.check("vectors wait over a change of the mechanism", over_mode_change, machine)
    trial.check("a restore restores the wire", wire_over_restore, machine)
    trial.check("a vector that is withdrawn sends nothing, and its next event comes", withdrawn, machine)
    trial.check("a withdrawal is of the mechanism in force", withdrawn_in_force, machine)
    trial.check("withdrawals are refused with 2 and 7", refused_withdrawals, machine)
    trial.check("the recording goes on behind a withdrawal", recorded_withdrawal, machine)
