"""Linux's own driver test."""
import re

import cards
from checks.common import expect
from machine import Failure


def pcitest(machine, number, words):
    said, _ = machine.run("pcitest -D /dev/pci-endpoint-test.%d %s" % (number, words))
    if not re.search(r"OKAY\s*$", said):
        raise Failure("pcitest %s: %s" % (words, said))


def interrupts(machine, name):
    said, _ = machine.run("grep '%s$' /proc/interrupts" % name)
    return int(said.split()[1]) if said else 0


def pin_test(machine, number):
    pcitest(machine, number, "-i 0")
    name = "pci-endpoint-test.%d" % number
    before = interrupts(machine, name)
    for _ in range(2):
        pcitest(machine, number, "-l")
    expect("interrupts of two raised lines", interrupts(machine, name) - before, 2)
    return "2 of 2"


def vector_test(machine, number, kind, letter, count):
    pcitest(machine, number, "-i %d" % kind)
    for n in range(1, count + 1):
        pcitest(machine, number, "-%s %d" % (letter, n))
    pcitest(machine, number, "-i 0")
    return "%d of %d" % (count, count)


def driver_tests(trial, machine):
    trial.heading("Linux's pci_endpoint_test")
    trial.check("the driver takes all four cards", lambda: expect(
        "devices", machine.run("insmod /pci_endpoint_test.ko irq_type=0; ls /dev/pci-endpoint-test.* | wc -l")[0], "4"))
    for number, (name, _) in enumerate(cards.CARDS):
        trial.check("pin, card %d (%s)" % (number, name), pin_test, machine, number)
        trial.check("MSI 1 to 32, card %d (%s)" % (number, name), vector_test, machine, number, 1, "m", 32)
    trial.check("MSI-X 1 to 64, card 0", vector_test, machine, 0, 2, "x", 64)
