"""What checks share: a trial that counts them, and what they ask of a machine."""
import re
import time

from machine import Failure, Silence


class Trial:
    """Prints a line for each check, and counts."""

    def __init__(self):
        self.passed = self.failed = 0
        self.began = time.monotonic()

    def heading(self, text):
        print("[%3d s] %s" % (time.monotonic() - self.began, text), flush=True)

    def check(self, name, body, *arguments):
        """Whether the check passed. It fails by an exception, which says why, and else gives what to print beside it. A
        machine that does not answer ends the trial of machines."""
        try:
            said = body(*arguments)
            self.passed += 1
            print("    ok    %s%s" % (name, ": " + said if said else ""), flush=True)
            return True
        except (Failure, OSError) as why:
            self.failed += 1
            print("    FAIL  %s: %s" % (name, why), flush=True)
            if isinstance(why, Silence):
                raise
            return False


def expect(what, found, wanted):
    if found != wanted:
        raise Failure("%s: %r in place of %r" % (what, found, wanted))


def has(what, text, part):
    if part not in text:
        raise Failure("%s: %r has no %r" % (what, text, part))


def not_missed(said):
    has("driver", said, "missed 0 of ")
    return said


# ---- what waits

WAITING = "waiting MSI-X vectors:"


def waiting(machine):
    return re.search(WAITING + "(.*)", machine.tell("show")).group(1).strip()


def quiet_card(machine, masked):
    """MSI-X with these vectors masked and an event of each held."""
    machine.act("msix 64")
    machine.act("open")
    for v in masked:
        machine.act("mask %d" % v)
        has("event", machine.tell("event %d" % v), ": held")


def comes_once(machine, vectors):
    """Opening all brings each of these vectors one interrupt."""
    before = [int(machine.act("handled %d" % v)) for v in vectors]
    machine.act("open")
    for v, n in zip(vectors, before):
        expect("interrupts of vector %d" % v, int(machine.act("handled %d" % v)) - n, 1)
    expect("waiting", waiting(machine), "none")
    expect("driver", machine.act("missed").split(" of")[0], "missed 0")
