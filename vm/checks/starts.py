"""Cards of other kinds, and machines that do not start."""
import glob
import os
import subprocess
import time

import cards
from checks.common import expect, has
from machine import HERE, ROOM, Failure

EVENT = 1
RECORD_BYTES = {EVENT: 3, 2: 2, 3: 8, 4: 15, 5: 1}


def does_not_start(device, options, words):
    run = subprocess.run(["qemu-system-x86_64", "-nodefaults", "-display", "none", "-machine", "q35", "-plugin", device]
                         + ["-device", "musgarento," + options], stdin=subprocess.DEVNULL, stdout=subprocess.PIPE,
                         stderr=subprocess.STDOUT, timeout=60)
    has("QEMU's words", run.stdout.decode(), words)
    expect("exit status", run.returncode, 1)


def starts(device, options):
    """The machine starts, takes a reset, and ends."""
    run = subprocess.run(["qemu-system-x86_64", "-nodefaults", "-display", "none", "-machine", "q35", "-S", "-plugin", device]
                         + ["-monitor", "stdio", "-device", "musgarento," + options], input=b"system_reset\nquit\n",
                         stdout=subprocess.PIPE, stderr=subprocess.STDOUT, timeout=60)
    expect("exit status", run.returncode, 0)


def runs_at_a_rate(device, options):
    """With rate= events come by themselves: they are in the log."""
    name = os.path.join(ROOM, "rate")
    for old in glob.glob(name + ".*"):
        os.remove(old)
    words = ["qemu-system-x86_64", "-nodefaults", "-display", "none", "-machine", "q35", "-plugin", device,
             "-monitor", "stdio", "-device", "musgarento,%s,rate=1000,record=%s" % (options, name)]
    machine = subprocess.Popen(words, stdin=subprocess.PIPE, stdout=subprocess.DEVNULL, stderr=subprocess.DEVNULL)
    time.sleep(1)
    machine.communicate(b"quit\n", timeout=60)
    expect("exit status", machine.returncode, 0)
    with open(name + ".clg", "rb") as file:
        events = kinds(file.read()).count(EVENT)
    if events < 100:
        raise Failure("%d events in a second" % events)


def kinds(log):
    """The kinds of the records of a log."""
    at, found = 5, []
    while at < len(log):
        found.append(log[at])
        at += RECORD_BYTES[log[at]]
    return found


def changed(name, at, value):
    """The first card's bytes with one changed, in a file."""
    config = bytearray(cards.CARDS[0][1])
    config[at] = value
    path = os.path.join(ROOM, name + ".config")
    with open(path, "wb") as file:
        file.write(config)
    return "card=" + path


def plain_card():
    """The first card's bytes with two BARs in them, as they are read from a running machine."""
    config = bytearray(cards.CARDS[0][1])
    cards.put(config, 0x10, 4, 0xFEBF1000)
    cards.put(config, 0x18, 4, 0xFEBF2000)
    path = os.path.join(ROOM, "plain.config")
    with open(path, "wb") as file:
        file.write(config)
    return "card=" + path


def start_tests(trial, device):
    trial.heading("other cards, and cards that cannot be had")
    card = "card=" + os.path.join(ROOM, "card0.config")
    short = os.path.join(ROOM, "short.config")
    with open(short, "wb") as file:
        file.write(bytes(255))
    sizes = ",bar0=4096,bar2=4096"
    trial.check("a card without a pin", starts, device, changed("pinless", 0x3D, 0) + sizes)
    trial.check("sizes and events that are not given", starts, device, plain_card())
    trial.check("events that come at a rate from the beginning", runs_at_a_rate, device, card + sizes)
    trial.check("a saved image as card", starts, device, "card=" + os.path.join(HERE, "../trials/sonic.card"))
    for name, options, words in (
            ("no card", "bar0=4096", "which card?"),
            ("no such file", "card=%s/none" % ROOM, "No such file"),
            ("255 bytes", "card=" + short, "as an image refused with 20: "),
            ("bridge header", changed("header", 0x0E, 1) + sizes, "start refused with 10: "),
            ("broken list", changed("list", cards.MSI + 1, 0x3C) + sizes, "start refused with 11: "),
            ("MSI twice", changed("twice", cards.MSIX, 0x05) + sizes, "start refused with 12: "),
            ("Capable 6", changed("capable", cards.MSI + 2, 0x8C) + sizes, "start refused with 13: "),
            ("a table that does not fit", card + ",bar2=2048", "start refused with 14: "),
            ("63 events", card + sizes + ",events=63", "start refused with 15: "),
            ("a BAR of 5,000 bytes", card + ",bar0=5000,bar2=4096", "BAR 0 of 5000 bytes"),
            ("a function that is not number 0", card + sizes + ",addr=3.1,multifunction=on", "start refused with 16: "),
            ("a self-test in a small BAR", card + ",bar0=1024,bar2=4096,selftest=0", "selftest=0: no BAR of 2048 bytes"),
            ("a memory file that is not there", card + sizes + ",memory0=%s/none" % ROOM, "No such file"),
            ("a recording that cannot be written", card + sizes + ",record=%s/none/x" % ROOM, "cannot be written")):
        trial.check(name, does_not_start, device, options, words)
    trial.check("another QEMU than the device was built for", does_not_start, os.path.join(ROOM, "elsewhere.so"), card,
                "built for QEMU 0.0.0")
