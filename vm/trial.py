"""The trial: Linux in QEMU with the proved card. `bash vm/trial` builds what it needs and runs this.

trial.py [--quick] [PLUGIN]: with --quick less load; PLUGIN is a file of the room, device.so if not said.
"""
import os
import subprocess
import sys

from checks.bench import bench_tests
from checks.common import Trial
from checks.driver import driver_tests
from checks.load import load_tests
from checks.logs import log_tests
from checks.saved import saved_tests
from checks.starts import start_tests
from machine import ROOM, Machine, Silence

DEVICE = next((word for word in sys.argv[1:] if not word.startswith("-")), "device.so")


def running_tests(trial, machines, device):
    if not trial.check("Linux boots", machines[0].booted):
        return
    driver_tests(trial, machines[0])
    bench_tests(trial, machines[0])
    load_tests(trial, machines[0])
    saved_tests(trial, machines, device)
    machines[-1].tell("save " + machines[-1].recording(0) + ".end")


def main():
    trial = Trial()
    device = os.path.join(ROOM, DEVICE)
    os.chdir(ROOM)
    subprocess.run(["qemu-img", "create", "-q", "-f", "qcow2", os.path.join(ROOM, "snapshots.qcow2"), "64M"], check=True)
    trial.heading("a machine with four cards, " + DEVICE)
    machines = [Machine("first", device)]
    try:
        running_tests(trial, machines, device)
    except Silence:
        trial.heading("the machine does not answer, and is ended")
    finally:
        machines[-1].end()
    log_tests(trial, machines)
    start_tests(trial, device)
    print("%d passed, %d failed" % (trial.passed, trial.failed))
    return trial.failed > 0


if __name__ == "__main__":
    sys.exit(main())
