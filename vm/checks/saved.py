"""The machine's own snapshots and migration."""
import os
import re
import subprocess
import time

from checks.bench import damage
from checks.common import comes_once, expect, has, quiet_card, waiting
from checks.driver import interrupts, pin_test
from checks.load import begin_storm, end_storm
from machine import ROOM, Failure, Machine

SNAPSHOTS = os.path.join(ROOM, "snapshots.qcow2")


def snapshot(machine):
    quiet_card(machine, [2, 40])
    machine.human("savevm halfway")
    machine.act("open")
    expect("waiting", waiting(machine), "none")
    machine.human("loadvm halfway")
    expect("waiting", waiting(machine), "2 40")
    comes_once(machine, [2, 40])


def set_flags(places, value):
    """The flags byte of the images at these places of the snapshots' file."""
    for place in places:
        damage(SNAPSHOTS, place + 5, value)


def damaged_snapshot(machine):
    """Loaded into a running machine: refused, the card as it was, the machine stands still; a good one loads again."""
    quiet_card(machine, [7])
    machine.human("savevm damaged")
    with open(SNAPSHOTS, "rb") as file:
        contents = file.read()
    places = [found.start() for found in re.finditer(rb"IRQ\x01\x00", contents)]
    kept = [contents[place + 5] for place in places]
    machine.act("open")
    before = machine.tell("show").split("\n")[:3]
    set_flags(places, 0xFF)
    try:
        machine.human("loadvm damaged")
        raise Failure("a damaged snapshot was loaded")
    except Failure as why:
        has("QEMU's words", str(why), "the saved card is refused with 22: ")
    expect("card", machine.tell("show").split("\n")[:3], before)
    expect("running", machine.ask("query-status")["running"], False)
    for place, value in zip(places, kept):
        set_flags([place], value)
    machine.human("loadvm damaged")
    machine.ask("cont")
    expect("waiting", waiting(machine), "7")
    comes_once(machine, [7])


def wire_over_snapshot(machine):
    """A wire that became active while the machine stood still is active again, and the driver takes one interrupt."""
    machine.act("pin")
    machine.run("rmmod storm; insmod /pci_endpoint_test.ko irq_type=0")
    before = interrupts(machine, "pci-endpoint-test.0")
    machine.ask("stop")
    has("line", machine.tell("line 1"), "Assert_INTA")
    machine.human("savevm wire")
    has("line", machine.tell("line 0"), "Deassert_INTA")
    machine.human("loadvm wire")
    has("wire", machine.tell("show"), "line high, wire active")
    machine.ask("cont")
    expect("interrupts", interrupts(machine, "pci-endpoint-test.0") - before, 1)
    has("wire", machine.tell("show"), "line low, wire inactive")
    said = pin_test(machine, 0)
    machine.run("rmmod pci_endpoint_test; insmod /storm.ko")
    return "then " + said


def snapshot_under_load(machine):
    begin_storm(machine, 20)
    time.sleep(0.3)
    machine.human("savevm load")
    time.sleep(0.3)
    machine.ask("stop")
    machine.guest.forget()
    machine.human("loadvm load")
    machine.ask("cont")
    return end_storm(machine)


def migrate(machine, name, device):
    """The machine in another process."""
    state = os.path.join(ROOM, "machine.state")
    machine.ask("stop")
    machine.ask("migrate", uri="exec:cat > " + state)
    for _ in range(600):
        status = machine.ask("query-migrate").get("status")
        if status in ("completed", "failed"):
            break
        time.sleep(0.1)
    expect("migration", status, "completed")
    machine.tell("save " + machine.recording(0) + ".end")
    machine.end()
    other = Machine(name, device, state)
    for _ in range(200):
        if other.ask("query-status")["status"] != "inmigrate":
            break
        time.sleep(0.1)
    other.ask("cont")
    return other


def damaged_states(device):
    """The saved machine with a damaged card: QEMU does not load it, and says the number."""
    state = os.path.join(ROOM, "machine.state")
    with open(state, "rb") as file:
        place = file.read().rindex(b"IRQ\x01\x00")
    for at, value, number in ((0, 0xFF, 20), (3, 0xFF, 21), (5, 0xFF, 22)):
        with open(state, "r+b") as file:
            file.seek(place + at)
            kept = file.read(1)
        damage(state, place + at, value)
        words = Unbooted().words(device) + ["-incoming", "exec:cat " + state]
        run = subprocess.run(words, stdin=subprocess.DEVNULL, stdout=subprocess.PIPE, stderr=subprocess.STDOUT, timeout=60)
        damage(state, place + at, kept[0])
        has("QEMU's words", run.stdout.decode(), "the saved card is refused with %d: " % number)
        expect("exit status", run.returncode, 1)


class Unbooted(Machine):
    """A machine that is asked for its words alone."""

    def __init__(self):
        self.name = "damaged"
        self.clear()


def moved(trial, machine, name, device):
    """The machine in another process, or where it was if that fails."""
    kept = [machine]
    trial.check("the machine goes to another process", lambda: kept.append(migrate(machine, name, device)))
    return kept[-1]


def saved_tests(trial, machines, device):
    trial.heading("the machine's own snapshots and migration")
    trial.check("a snapshot keeps what waits", snapshot, machines[0])
    trial.check("a damaged snapshot is refused by a running machine", damaged_snapshot, machines[0])
    trial.check("a snapshot keeps an active wire", wire_over_snapshot, machines[0])
    trial.check("a snapshot under load", snapshot_under_load, machines[0])
    trial.check("three vectors wait", quiet_card, machines[0], [1, 33, 62])
    machines.append(moved(trial, machines[0], "second", device))
    trial.check("what waited still waits there", lambda: expect("waiting", waiting(machines[1]), "1 33 62"))
    trial.check("and comes once", comes_once, machines[1], [1, 33, 62])
    trial.check("damaged states are refused with 20, 21 and 22", damaged_states, device)
    if trial.check("a storm is begun", begin_storm, machines[1], 20):
        time.sleep(0.3)
        machines.append(moved(trial, machines[1], "third", device))
        trial.check("and ends well in another process", lambda: end_storm(machines[-1]))
