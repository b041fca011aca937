"""Every recording, played again by the proved player."""
import glob
import os
import re
import subprocess

import cards
from machine import ROOM, Failure


def part_plays(part, *image):
    """A part of a recording gives its packets again, and the card of the image at its end. How many records it has, and
    bytes of packets."""
    run = subprocess.run([os.path.join(ROOM, "replay"), part, *image], stdout=subprocess.PIPE, stderr=subprocess.STDOUT)
    said = run.stdout.decode().strip()
    if run.returncode:
        raise Failure("%s: %s" % (os.path.basename(part), said))
    found = re.match(r"(\d+) records, \d+ of them refused, (\d+) bytes", said)
    return int(found.group(1)), int(found.group(2))


def plays_again(machine, number):
    """Each part of a card's recording gives its packets again; the last one the card as it was saved at the end."""
    name = machine.recording(number)
    parts = sorted(glob.glob(name + ".clg") + glob.glob(name + "-*.clg"), key=os.path.getmtime)
    records = sent = 0
    for part in parts:
        image = [name + ".end"] if part == parts[-1] and os.path.exists(name + ".end") else []
        more = part_plays(part[:-len(".clg")], *image)
        records, sent = records + more[0], sent + more[1]
    return "%d parts, %d records, %d bytes of packets" % (len(parts), records, sent)


def log_tests(trial, machines):
    trial.heading("logs, played again by the proved player")
    for machine in dict.fromkeys(machines):
        for number in range(len(cards.CARDS)):
            trial.check("machine %s, card %d" % (machine.name, number), plays_again, machine, number)
