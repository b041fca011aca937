"""Load: a driver that finds each lost interrupt."""
import os
import sys
import time

from checks.common import has, not_missed
from machine import ROOM

QUICK = "--quick" in sys.argv
PATIENCE = 600  # seconds for the driver's answer, on a host that does much else


def begin_storm(machine, rounds):
    act = "/sys/module/storm/parameters/act"
    machine.act("msix 64")
    machine.begin("echo storm %d 150 200000 > %s; cat %s" % (rounds, act, act))


def storm(machine, mode, rounds):
    machine.act(mode)
    return not_missed(machine.act("storm %d 150 200000" % rounds, PATIENCE))


def end_storm(machine):
    return not_missed(machine.finished(PATIENCE)[0])


def storm_with_saves(machine, rounds):
    """Saves, resets and restores of the card while the machine stands still, again and again."""
    name = os.path.join(ROOM, "load.image")
    begin_storm(machine, rounds)
    for _ in range(10):
        time.sleep(0.1)
        machine.ask("stop")
        has("save", machine.tell("save " + name), "an image of ")
        has("reset", machine.tell("reset"), "accepted")
        has("restore", machine.tell("restore " + name), "accepted")
        machine.ask("cont")
    return end_storm(machine)


def upheaval(machine, rounds):
    machine.act("msix 64")
    return not_missed(machine.act("upheaval %d 200 50000" % rounds, PATIENCE))


def load_tests(trial, machine):
    trial.heading("load")
    scale = 1 if QUICK else 20
    trial.check("masks, Function Mask, bus mastering, rewritten entries: MSI-X", storm, machine, "msix 64", 12 * scale)
    trial.check("masks, bus mastering, rewritten messages: MSI", storm, machine, "msi 32", 12 * scale)
    trial.check("with function level resets and changes of the mechanism", upheaval, machine, 2 * scale)
    trial.check("with ten saves, resets and restores at the bench", storm_with_saves, machine, 6 * scale)
