#!/usr/bin/env python3
"""Proves crates with the crates below them, several side by side, and says how far it is. `make run` and `make test` call it.

The first line says about how long it takes and how much memory it may need. Then a line says when the check of a crate begins and
ends, and about how much time is left. On a terminal one line is rewritten instead. The crates with the most work in and above them
come first, each check has one job, and fewer run side by side where memory is short. A crate that is proved stays so: an
interrupted run says what is kept, and the next one goes on from there. After a failed check its output is printed, no other check
begins, and the status is 1.

rt locks the folders of a crate and of all crates below it, so that no two checks in one checkout run side by side. So each check
runs in a folder of its own in .git/proving, with links to the files of the crate and of the libraries below it. The crate's out/ is
moved there and back. This script holds the locks of the crates meanwhile.

    tests/prove.py [--jobs N] NAME..      NAME as in crates.txt; N checks side by side at most, else one for each processor
    tests/prove.py --gate                 runs the gate, .ci/run, and prints what it prints with such lines between; ends with its status

RT names another rt.
"""
import argparse
import ctypes
import fcntl
import hashlib
import os
import re
import select
import shutil
import signal
import subprocess
import sys
import time

ROOT = os.path.dirname(os.path.dirname(os.path.abspath(__file__)))
ROOM = f"{ROOT}/.git/proving" if os.path.isdir(f"{ROOT}/.git") else f"{ROOT}/bin/proving"
RT = os.environ.get("RT", "rt")
# What a check of a line of source, definition or proof takes (bench/gate.sh run), and the memory that a check may take.
SECONDS_PER_LINE = 0.039
GIGABYTES = 4


class Crate:
    def __init__(self, line):
        head, _, uses = line.partition(":")
        self.name, self.line, self.uses = head.split()[0], line, uses.split()
        self.folder = f"{ROOT}/crates/{self.name}"
        self.is_program = os.path.isfile(f"{self.folder}/src/main.rt")
        self.proved = f"{self.folder}/out/rlib/proved"

    def read(self, crates, version):
        """Reads the crate, once those that it uses are read: its lines, the crates below it, and a sum of all that its proof reads."""
        self.below = {}
        for it in (crates[name] for name in self.uses if name in crates):
            self.below.update({**it.below, it.name: it})
        sums = hashlib.sha256(repr((version, self.line, [crates[it].sum for it in self.uses if it in crates])).encode())
        self.lines = 0
        for part in ("src", "specs", "proofs"):
            for at, folders, names in os.walk(f"{self.folder}/{part}"):
                folders.sort()
                for name in sorted(names):
                    with open(f"{at}/{name}", "rb") as file:
                        text = file.read()
                    self.lines += text.count(b"\n")
                    sums.update(repr((os.path.relpath(f"{at}/{name}", self.folder), text)).encode())
        self.sum = sums.hexdigest()

    def is_proved(self):
        try:
            with open(self.proved) as file:
                return file.read() == self.sum
        except OSError:
            return False

    def begin(self):
        """Starts the check in a folder of its own."""
        self.at = f"{ROOM}/{self.name}"
        os.makedirs(f"{self.at}/crates")
        # rt wants a folder for each line of crates.txt.
        with open(f"{self.at}/crates.txt", "w") as file:
            file.writelines(f"{it.line}\n" for it in [*self.below.values(), self])
        for it in [*self.below.values(), self]:
            link_tree(it.folder, f"{self.at}/crates/{it.name}", "out", "must-fail", "edits")
        for it in self.below.values():
            link_tree(f"{it.folder}/out/rlib", f"{self.at}/crates/{it.name}/out/rlib")
        folder = f"{self.at}/crates/{self.name}"
        if os.path.isdir(f"{self.folder}/out"):
            os.rename(f"{self.folder}/out", f"{folder}/out")
        self.begun = time.monotonic()
        with open(f"{self.at}/said", "w") as said:
            words = [RT, "check" if self.is_program else "lib", "--jobs", "1"]
            self.running = subprocess.Popen(words, cwd=folder, stdin=subprocess.DEVNULL, stdout=said, stderr=said, start_new_session=True, preexec_fn=end_with_us)

    def end(self):
        """Takes back what the check left, and returns its status and what it printed."""
        self.seconds, status = time.monotonic() - self.begun, self.running.wait()
        with open(f"{self.at}/said", errors="replace") as file:
            said = file.read()
        take_back(self.name)
        if not status:
            os.makedirs(os.path.dirname(self.proved), exist_ok=True)
            with open(self.proved, "w") as file:
                file.write(self.sum)
        return status, said


def end_with_us():
    """Has a child end when this script ends, however that ends. rt then ends what it started."""
    ctypes.CDLL(None).prctl(1, signal.SIGKILL)


def link_tree(one, other, *without):
    shutil.copytree(one, other, copy_function=link, ignore=lambda at, names: without if at == one else ())


def link(one, other):
    try:
        os.link(one, other)
    except OSError:
        shutil.copy2(one, other)


def take_back(name):
    """Moves the out/ of a crate back from the folder of its check, and removes that."""
    here, there = f"{ROOT}/crates/{name}/out", f"{ROOM}/{name}/crates/{name}/out"
    if os.path.isdir(there) and not os.path.exists(here):
        os.rename(there, here)
    shutil.rmtree(f"{ROOM}/{name}", ignore_errors=True)


def lock(crates):
    """Waits until no rt works in the crates' folders, and keeps others out until this script ends."""
    held = []
    for crate in sorted(crates, key=lambda it: it.folder):
        held.append(os.open(crate.folder, os.O_RDONLY))
        try:
            fcntl.flock(held[-1], fcntl.LOCK_EX | fcntl.LOCK_NB)
        except BlockingIOError:
            print(f"waiting for another rt or make to finish in {crate.folder}", flush=True)
            fcntl.flock(held[-1], fcntl.LOCK_EX)
    return held


def gigabytes_free():
    """Returns the memory that is available, under the limit of the control group, too."""
    with open("/proc/meminfo") as file:
        free = int(re.search(r"MemAvailable:\s+(\d+)", file.read())[1]) << 10
    try:
        most, used = (open(f"/sys/fs/cgroup/memory.{it}").read() for it in ("max", "current"))
        free = min(free, int(most) - int(used))
    except (OSError, ValueError):
        pass
    return free / 2**30


class Run:
    def __init__(self, wanted, done, lanes):
        self.wanted, self.done, self.lanes, self.is_terminal, self.is_cut = wanted, done, lanes, sys.stdout.isatty(), False
        self.kept = len(self.done)
        self.left = [it for it in wanted if it.name not in self.done]
        self.running, self.failed, self.number = [], [], self.kept
        self.seconds, self.lines = 5000 * SECONDS_PER_LINE, 5000
        # The lines of the longest chain of crates that begins with each.
        self.chain = {}
        for it in reversed(wanted):
            self.chain[it.name] = it.lines + max((self.chain[up.name] for up in wanted if it.name in up.below), default=0)

    def say(self, text):
        clear = "\r\x1b[K" if self.is_terminal else ""
        print(f"{clear}{text}", flush=True)

    def tell(self, text):
        """Says what happened just now, which a terminal shows by its one line."""
        if not self.is_terminal:
            print(text if self.failed else f"{text}; about {minutes(self.rest())} left", flush=True)

    def show(self):
        """Rewrites the line of a terminal."""
        if self.is_terminal:
            now = ", ".join(f"{it.name} {time.monotonic() - it.begun:.0f} s" for it in self.running)
            line = f"[{len(self.done)}/{len(self.wanted)}] about {minutes(self.rest())} left: {now}"
            print(f"\r{line[: shutil.get_terminal_size().columns - 1]}\x1b[K", end="", flush=True)

    def rest(self):
        """Returns about how many seconds are left: a walk through the rest, with the speed of the crates so far."""
        speed, now, done = self.seconds / self.lines, 0.0, set(self.done)
        ends = {it: max(it.lines * speed - (time.monotonic() - it.begun), 1) for it in self.running}
        left = list(self.left)
        while left or ends:
            for it in self.ready(left, done)[: self.lanes - len(ends)]:
                left.remove(it)
                ends[it] = now + it.lines * speed
            if not ends:
                break
            first = min(ends, key=ends.get)
            now = ends.pop(first)
            done.add(first.name)
        return now

    def ready(self, left, done):
        return sorted((it for it in left if done.issuperset(it.below)), key=lambda it: -self.chain[it.name])

    def step(self):
        """Begins the checks that can, and ends those that have."""
        for it in [] if self.failed else self.ready(self.left, self.done):
            if len(self.running) >= self.lanes or self.running and gigabytes_free() < GIGABYTES:
                break
            self.left.remove(it)
            self.number += 1
            it.number = f"[{self.number}/{len(self.wanted)}]"
            self.running.append(it)
            it.begin()
            self.tell(f"{it.number} {it.name} begins")
        for it in [it for it in self.running if it.running.poll() is not None]:
            self.running.remove(it)
            status, said = it.end()
            if not status:
                self.done.add(it.name)
                self.seconds, self.lines = self.seconds + it.seconds, self.lines + it.lines
                self.tell(f"{it.number} {it.name} is proved, {it.seconds:.0f} s")
            elif status in (-9, 247) and self.lanes > 1:
                # rt ends so where the system killed the check for want of memory.
                self.lanes, self.number = 1, self.number - 1
                self.left.append(it)
                self.say(f"{it.name} was killed, most likely for memory: from here on one check at a time")
            else:
                self.failed.append(it.name)
                self.say(f"== {it.name}\n{said.rstrip()}\n{it.number} {it.name} is NOT proved, {it.seconds:.0f} s: no other check begins")

    def whole(self):
        """Proves all, and returns the status."""
        while self.running or self.left and not self.failed:
            if self.is_cut:
                return self.cut_off()
            self.step()
            self.show()
            time.sleep(0.2)
        if self.failed:
            self.say(f"NOT PROVED: {' '.join(self.failed)}; {len(self.done)} of {len(self.wanted)} crates are proved and kept")
            return 1
        self.say(f"{len(self.wanted)} crates are proved" + (f", {self.kept} of them by earlier runs" if self.kept else ""))
        return 0

    def cut_off(self):
        """Ends the checks, says what is kept, and returns the status."""
        for it in self.running:
            it.running.kill()
            it.running.wait()
            take_back(it.name)
        cut = f", with parts of {' '.join(it.name for it in self.running)}" if self.running else ""
        self.say(f"interrupted: {len(self.done)} of {len(self.wanted)} crates are proved and kept{cut}. The same command goes on from there")
        return 130

    def cut(self, *_):
        self.is_cut = True


class Gate(Run):
    """A run of the gate, which begins and ends its checks itself: it makes a crate's out/ at the begin, and prints a line at the end."""

    def whole(self):
        started = time.time()
        gate = subprocess.Popen([f"{ROOT}/.ci/run"], cwd=ROOT, stdout=subprocess.PIPE, preexec_fn=end_with_us)
        part = b""
        while True:
            if self.is_cut:
                gate.terminate()
            self.begin_new(started)
            self.show()
            if select.select([gate.stdout], [], [], 0.5)[0]:
                read = os.read(gate.stdout.fileno(), 1 << 16)
                *lines, part = (part + read).split(b"\n")
                for line in lines or [part] * (not read and bool(part)):
                    self.say(line.decode(errors="replace"))
                    self.end_by(line.decode(errors="replace"))
                if not read:
                    status = gate.wait()
                    print("\r\x1b[K" * self.is_terminal, end="")
                    return status if status >= 0 else 128 - status

    def begin_new(self, started):
        for it in list(self.left):
            try:
                is_new = os.stat(f"{it.folder}/out").st_mtime >= started
            except OSError:
                is_new = False
            if is_new:
                self.begin_one(it)

    def begin_one(self, it):
        self.left.remove(it)
        self.running.append(it)
        self.number += 1
        it.number, it.begun = f"[{self.number}/{len(self.wanted)}]", time.monotonic()
        self.tell(f"{it.number} {it.name} begins")

    def end_by(self, line):
        found = re.match(r"rt: (\w+) (proved$|NOT PROVED|is kept: )", line)
        for it in [it for it in [*self.left, *self.running] if found and it.name == found[1]]:
            if it in self.left:
                self.begin_one(it)
            self.running.remove(it)
            self.done.add(it.name)
            seconds = time.monotonic() - it.begun
            if found[2] == "proved":
                self.seconds, self.lines = self.seconds + seconds, self.lines + it.lines
            self.tell(f"{it.number} {it.name} {found[2].rstrip(': ')}, {seconds:.0f} s")


def minutes(seconds):
    return f"{seconds / 60:.0f} min" if seconds >= 90 else f"{seconds:.0f} s"


def main():
    words = argparse.ArgumentParser()
    words.add_argument("--jobs", type=int, default=len(os.sched_getaffinity(0)))
    words.add_argument("--gate", action="store_true")
    words.add_argument("names", nargs="*")
    words = words.parse_args()
    if bool(words.names) == words.gate:
        sys.exit("tests/prove.py [--jobs N] NAME.. or tests/prove.py --gate")
    version = subprocess.run([RT, "version"], stdout=subprocess.PIPE, text=True, check=True).stdout
    crates = {}
    with open(f"{ROOT}/crates.txt") as file:
        for line in file:
            line = line.partition("#")[0].strip()
            if line:
                it = Crate(line)
                crates[it.name] = it
                it.read(crates, version)
    lacking = [it for it in words.names if it not in crates]
    if lacking:
        sys.exit(f"no crate {lacking[0]} in crates.txt")
    below = {name for it in words.names or crates for name in [it, *crates[it].below]}
    wanted = [it for it in crates.values() if it.name in below]
    free = gigabytes_free()
    lanes = max(1, min(words.jobs, int(free / GIGABYTES)))
    if words.gate:
        run = Gate(wanted, set(), lanes)
    else:
        # They stay locked until this script ends.
        held = lock(wanted)
        for name in os.listdir(ROOM) if os.path.isdir(ROOM) else []:
            take_back(name)
        run = Run(wanted, {it.name for it in wanted if it.is_proved()}, lanes)
    if run.kept:
        run.say(f"{run.kept} of {len(wanted)} crates are proved already")
    if run.left:
        run.say(f"{len(run.left)} crates to prove: about {minutes(run.rest())} with {lanes} checks side by side, in up to {lanes * GIGABYTES} GB of memory")
    if words.gate:
        run.say("This is the time from nothing, without edits and programs; what the kit keeps of earlier runs takes seconds")
    elif run.left and lanes < words.jobs:
        run.say(f"{free:.0f} GB of memory are free, so {lanes} and not {words.jobs} checks run side by side")
    for it in (signal.SIGINT, signal.SIGTERM, signal.SIGHUP):
        if it != signal.SIGHUP or signal.getsignal(it) != signal.SIG_IGN:
            signal.signal(it, run.cut)
    return run.whole()


if __name__ == "__main__":
    sys.exit(main())
