"""A machine of the trial: QEMU with the device, the guest's shell, the bench and QEMU's monitor."""
import glob
import json
import os
import re
import socket
import subprocess
import time

import cards

HERE = os.path.dirname(os.path.abspath(__file__))
ROOM = os.path.join(HERE, "room")


class Failure(Exception):
    """The machine did not do what a check asked of it."""


class Silence(Failure):
    """It does not answer any more."""


class Line:
    """A unix socket that QEMU listens on, read up to a mark."""

    def __init__(self, path, process, patience):
        self.patience = patience
        self.kept = b""
        self.socket = socket.socket(socket.AF_UNIX)
        for _ in range(200):
            try:
                self.socket.connect(path)
                return
            except OSError:
                if process.poll() is not None:
                    raise Failure("QEMU ended with status %d" % process.returncode)
                time.sleep(0.05)
        raise Failure("QEMU does not answer at " + path)

    def write(self, text):
        self.socket.sendall(text.encode())

    def until(self, pattern, patience=None):
        """What comes before the pattern, and its match."""
        patience = patience or self.patience
        end = time.monotonic() + patience
        while True:
            found = re.search(pattern, self.kept)
            if found:
                before, self.kept = self.kept[:found.start()], self.kept[found.end():]
                return before.decode("latin-1").replace("\r", ""), found
            self.socket.settimeout(max(0.01, end - time.monotonic()))
            try:
                got = self.socket.recv(65536)
            except socket.timeout:
                raise Silence("no answer in %d s; last: %r" % (patience, self.kept[-200:]))
            if not got:
                raise Silence("QEMU closed the line; last: %r" % self.kept[-200:])
            self.kept += got

    def forget(self):
        """Passes over what has come, of a machine that stands still."""
        self.kept = b""
        self.socket.settimeout(0.1)
        try:
            while self.socket.recv(65536):
                pass
        except socket.timeout:
            pass

    def close(self):
        self.socket.close()


class Machine:
    """Boots at once. `name` names its files in the room; `device` is the plugin; with `state` it takes that saved machine."""

    def __init__(self, name, device, state=None, patience=40):
        self.name = name
        self.patience = patience
        self.errors = self.path("errors")
        self.clear()
        self.monitor = self.guest = self.bench = None
        words = self.words(device)
        if state:
            words += ["-S", "-incoming", "exec:cat " + state]
        with open(self.errors, "wb") as errors:
            self.process = subprocess.Popen(words, stdin=subprocess.DEVNULL, stdout=errors, stderr=errors)
        self.monitor = Line(self.socket("monitor"), self.process, patience)
        self.monitor.until(rb'"QMP".*\n')
        self.ask("qmp_capabilities")
        self.guest = Line(self.socket("serial"), self.process, patience)
        self.bench = Line(self.socket("bench"), self.process, patience)

    def clear(self):
        """Removes the files of an earlier machine of this name."""
        for old in glob.glob(self.path("*")) + glob.glob(self.recording(0)[:-1] + "*"):
            os.remove(old)

    def socket(self, ending):
        """Relative to the folder of the process, since the name of a socket has 107 bytes at most."""
        return os.path.relpath(self.path(ending))

    def path(self, ending):
        return os.path.join(ROOM, "%s.%s" % (self.name, ending))

    def recording(self, number):
        return os.path.join(ROOM, "%s-card%d" % (self.name, number))

    def memory(self):
        """A file for the plain memory of a BAR."""
        path = os.path.join(ROOM, "memory.bin")
        with open(path, "wb") as file:
            file.write(bytes(range(256)) * 16)
        return path

    def words(self, device):
        """With -icount the guest's time is the number of its instructions: a busy host changes nothing that the guest
        sees. Interrupt remapping lets Linux grant more than one MSI vector."""
        words = ["qemu-system-x86_64", "-nodefaults", "-no-reboot", "-display", "none", "-m", "256",
                 "-machine", "q35,accel=tcg", "-icount", "shift=1,sleep=off", "-plugin", device,
                 "-device", "intel-iommu,intremap=on",
                 "-kernel", os.path.join(ROOM, "vmlinuz"), "-initrd", os.path.join(ROOM, "initramfs.gz"),
                 "-append", "console=ttyS0 quiet panic=-1 iommu.forcedac=1",
                 "-drive", "if=none,id=snapshots,file=%s,format=qcow2" % os.path.join(ROOM, "snapshots.qcow2"),
                 "-device", "virtio-blk-pci,drive=snapshots"]
        for chardev in ("serial", "bench", "monitor"):
            words += ["-chardev", "socket,id=%s,path=%s,server=on,wait=off" % (chardev, self.socket(chardev))]
        words += ["-serial", "chardev:serial", "-mon", "monitor,mode=control"]
        for number, (name, config) in enumerate(cards.CARDS):
            file = os.path.join(ROOM, "card%d.config" % number)
            with open(file, "wb") as out:
                out.write(config)
            options = ["musgarento", "addr=%d" % (3 + number), "card=" + file, "selftest=0", "record=" + self.recording(number)]
            options += ["bar%d=%d" % size for size in cards.BAR_SIZES.items()]
            if number == 0:
                options += ["control=bench"]
            if number == 3:
                options += ["memory2=" + self.memory()]
            words += ["-device", ",".join(options)]
        return words

    def ask(self, command, **arguments):
        """A command of QEMU's monitor; what it returns."""
        self.monitor.write(json.dumps({"execute": command, "arguments": arguments}) + "\n")
        while True:
            _, found = self.monitor.until(rb"[^\n]*\n")
            answer = json.loads(found.group())
            if "error" in answer:
                raise Failure("%s: %s" % (command, answer["error"]["desc"]))
            if "return" in answer:
                return answer["return"]

    def human(self, line):
        said = self.ask("human-monitor-command", **{"command-line": line})
        if said.strip():
            raise Failure("%s: %s" % (line, said.strip()))

    def booted(self):
        return self.guest.until(rb"=ready (\S+)\r?\n")[1].group(1).decode()

    def begin(self, line):
        """A line for the guest's shell, whose end is not waited for."""
        self.guest.write(line + "\n")

    def finished(self, patience=None):
        """What the line printed, and its exit status."""
        said, found = self.guest.until(rb"=(\d+)\r?\n", patience)
        return said.strip(), int(found.group(1))

    def run(self, line, patience=None):
        self.begin(line)
        return self.finished(patience)

    def act(self, line, patience=None):
        """A command of the storm's driver; its result."""
        act = "/sys/module/storm/parameters/act"
        said, status = self.run("echo %s > %s && cat %s" % (line, act, act), patience)
        if status:
            raise Failure("storm: %s: %s" % (line, said))
        return said

    def tell(self, line):
        """A line at the bench; its answer."""
        self.bench.write(line + "\n")
        return self.bench.until(rb"\n\n")[0]

    def end(self):
        """Ends QEMU; gives its exit status."""
        try:
            self.monitor.write('{"execute": "quit"}\n')
            self.process.wait(20)
        except (OSError, subprocess.TimeoutExpired):
            self.process.kill()
            self.process.wait()
        for line in (self.monitor, self.guest, self.bench):
            line.close()
        return self.process.returncode
