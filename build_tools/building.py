"""Proves crates side by side, those with the longest chain above them first. Each is proved in a room of its own, which
has further names of its files and of what is built below it, since a command of the toolchain keeps others out of all
folders that it reads."""

import contextlib
import fcntl
import os
import re
import shutil
import signal
import subprocess
import time
import zlib
from graphlib import TopologicalSorter

from build_tools.crates import ROOT, UNKNOWN, chains, is_old, read_lines, read_rows, read_uses, time_of

ROOMS = f"{ROOT}/crates/dex_program/out/rooms"
TURN = f"{ROOT}/crates/dex_program/out/turn"  # the processes that have the turn of this folder, the command's first
SECONDS = f"{ROOT}/tests/data/first_seconds"  # what the first proof of each crate took on a quick machine
SPELL = 0.0348  # what one spell of `pace` takes where dex_types takes 118 processor seconds
SIGNALS = signal.SIGINT, signal.SIGTERM, signal.SIGHUP


class Failure(Exception):
    """Why a build ends without a program, and, where there is one, the log of which the last lines tell more."""


def out_of(name):
    return f"{ROOT}/crates/{name}/out"


def read(path):
    """The text of a file, nothing where it is missing."""
    with contextlib.suppress(FileNotFoundError), open(path, encoding="utf-8", errors="replace") as file:
        return file.read()
    return ""


def write(path, text, mode="w"):
    with open(path, mode, encoding="utf-8") as file:
        file.write(text)


def move(path, to):
    """Moves a folder or file, where there is one, to where another may stand."""
    if os.path.isdir(to) and os.path.exists(path):
        shutil.rmtree(to)
    with contextlib.suppress(FileNotFoundError):
        os.replace(path, to)


def say(text):
    """Says a line on standard error, where that can be written."""
    with contextlib.suppress(OSError):
        os.write(2, f"{text}\n".encode(errors="surrogateescape"))


def told_of(words):
    return subprocess.run(words, stdout=subprocess.PIPE, text=True, check=False).stdout.strip()


def in_minutes(seconds):
    return f"about {round(seconds / 60)} minutes" if seconds > 90 else "a minute or so"


def pace():
    """How many times as long as a quick machine this one takes for a little work: the shortest of some spells."""
    data, spells = b"".join(b"%d" % (it * it) for it in range(40_000)), []
    for _ in range(9):
        start = time.perf_counter()
        zlib.compress(data)
        spells.append(time.perf_counter() - start)
    return min(spells) / SPELL


def without_keys():
    for it in (signal.SIGINT, signal.SIGQUIT):
        signal.signal(it, signal.SIG_IGN)


def told_holders():
    """Who has the turn of this folder, and how to go on without it, in words."""
    own, *proofs = read(TURN).split() or ["none"]
    if os.path.exists(f"/proc/{own}"):
        return f" (process {own})"
    left = " ".join(it for it in proofs if os.path.exists(f"/proc/{it}"))
    told = f"its proofs go on: processes {left}; what they prove is kept; kill {left} ends them"
    return f" (it was killed, and {told})" if left else ""


class Build:
    """A crate that is to be built, those that it stands on, what of them is proved, and what is at work."""

    def __init__(self, top, name, what):
        self.top, self.name, self.what, self.uses = top, name, what, read_uses(top)
        told = read_rows(SECONDS)
        self.seconds = {it: int(told[it][0]) if it in told else UNKNOWN for it in self.uses}
        self.chains = chains(self.uses, self.seconds)
        self.built, self.work, self.waits = set(), {}, set()
        self.failed = self.signal = self.turn = None

    def tell(self, text, when=""):
        say(f"{self.name}: {time.strftime(when)}{text}")

    # What is left, and for how long

    def guess_built(self):
        """Notes the crates that need no proof, so far as the times of files tell; rt decides of the others."""
        made = f"{out_of('dex_program')}/dex_program"
        for name, uses in self.uses.items():
            kit = f"{out_of(name)}/kit"
            is_kits = os.path.isfile(f"{out_of(name)}/rlib/stamp") and read(kit).strip() == self.kit
            if is_kits and self.built.issuperset(uses) and not (is_old(kit, [name]) and is_old(made, [name])):
                self.built.add(name)

    def left(self):
        """The crates that are not proved, and for how long on a quick machine: a chain, or all by all processors."""
        names = [it for it in self.uses if it not in self.built]
        return names, max([sum(self.seconds[it] for it in names) // self.most, *(self.chains[it] for it in names)])

    def told_left(self):
        """How long what is left may take, at the pace that was seen up to now."""
        left, took = self.left()[1], time.monotonic() - self.start
        done = self.whole - left
        return in_minutes(left * (took / done if min(done, took) > 60 else self.pace))

    # Turns and rooms

    def lock(self, folder, why):
        """Takes the lock of a folder, and says so where it has to wait. The lock ends with the number that it gives."""
        turn = os.open(folder, os.O_RDONLY)
        try:
            fcntl.flock(turn, fcntl.LOCK_EX | fcntl.LOCK_NB)
        except BlockingIOError:
            self.tell(f"{why()}; waiting for it")
            fcntl.flock(turn, fcntl.LOCK_EX)
        return turn

    @contextlib.contextmanager
    def alone_in(self, name):
        """No other command is at work in a crate meanwhile."""
        turn = self.lock(f"{ROOT}/crates/{name}", lambda: f"a command is at work in {name}")
        try:
            yield out_of(name)
        finally:
            os.close(turn)

    def take_turn(self):
        """Takes the turn of this folder, and what a build that was killed here left."""
        self.turn = self.lock(f"{ROOT}/crates", lambda: f"another ./dex is at work in this folder{told_holders()}")
        os.makedirs(os.path.dirname(TURN), exist_ok=True)
        write(TURN, f"{os.getpid()}\n")
        self.leave_rooms()

    def make_room(self, name):
        """Makes a crate's room, with the crates that are proved; what it keeps for its next proof is moved into it."""
        room, names, lines = f"{ROOMS}/{name}", [it for it in self.uses if it in self.built or it == name], read_lines()
        os.makedirs(room)
        write(f"{room}/kit", f"{self.kit}\n")
        write(f"{room}/crates.txt", "".join(f"{lines[it]}\n" for it in names))
        parts = [f"crates/{it}/{part}" for it in names for part in ("src", "specs", "proofs", "out/rlib")]
        parts = ["HANDLES", *(it for it in parts if os.path.isdir(f"{ROOT}/{it}"))]
        for how in ("-al", "-a"):  # further names of the files; copies, where the file system has no such names
            words = ["cp", how, "--parents", *parts, room]
            copied = subprocess.run(words, cwd=ROOT, stderr=subprocess.PIPE, text=True, errors="replace", check=False)
            if not copied.returncode:
                break
            shutil.rmtree(f"{room}/crates", ignore_errors=True)
        else:
            raise Failure(f"{name} cannot be copied into {os.path.relpath(ROOMS, ROOT)}, where it would be proved "
                          f"({''.join(copied.stderr.splitlines()[-1:])})")
        for folder in (out_of(name), f"{room}/crates/{name}/out"):
            os.makedirs(folder, exist_ok=True)
        with self.alone_in(name) as own:
            move(f"{own}/incremental", f"{room}/crates/{name}/out/incremental")

    def leave_room(self, name, is_kits=False):
        """Moves what a crate's room holds of its proof to the crate, and ends the room."""
        room, out = f"{ROOMS}/{name}", f"{ROOMS}/{name}/crates/{name}/out"
        if os.path.isdir(out_of(name)):
            with self.alone_in(name) as own:
                is_newer = time_of(f"{out}/rlib/stamp") > time_of(f"{own}/rlib/stamp")
                if is_newer:
                    move(f"{out}/rlib", f"{own}/rlib")
                if is_newer or is_kits:
                    move(f"{room}/kit", f"{own}/kit")
                move(f"{out}/incremental", f"{own}/incremental")
        shutil.rmtree(room)

    def leave_rooms(self):
        for name in os.listdir(ROOMS) if os.path.isdir(ROOMS) else ():
            self.leave_room(name)

    # The proofs

    def run(self, words, name, jobs, folder, log):
        """Begins a command, which has the turn too, and which no key of the terminal ends but through this process."""
        how = {"cwd": folder, "stdin": subprocess.DEVNULL, "stderr": subprocess.STDOUT, "preexec_fn": without_keys}
        with open(log, "wb") as said:
            process = subprocess.Popen([*words, "--jobs", str(jobs)], stdout=said, pass_fds=[self.turn], **how)
        self.work[name] = process, jobs, time.monotonic()
        write(TURN, f"{process.pid}\n", "a")
        return process

    def wait(self):
        """Waits a moment. A signal that came ends the build."""
        time.sleep(0.1)
        if self.signal:
            raise Failure("stopped")

    def hear(self, number, _):
        """Takes note of a signal. A second one ends this process."""
        signal.signal(number, signal.SIG_DFL)
        self.signal = number

    def begin(self, name, jobs):
        self.make_room(name)
        self.run(["rt", "lib"], name, jobs, f"{ROOMS}/{name}/crates/{name}", f"{out_of(name)}/build.log")

    def end(self, name):
        """Takes note of a crate whose proof ended."""
        process, _, begun = self.work.pop(name)
        is_proved = process.returncode == 0 and os.path.isfile(f"{ROOMS}/{name}/crates/{name}/out/rlib/stamp")
        self.leave_room(name, is_proved)
        if is_proved:
            self.built.add(name)
            if re.search(r"^logic=proved", read(f"{out_of(name)}/build.log"), re.M):
                write(f"{out_of(self.top)}/seconds", f"{name} {round(time.monotonic() - begun)}\n", "a")
                left = f"{len(self.left()[0])} of {len(self.uses)} left, {self.told_left()}"
                self.tell(f"{name} is proved; {left}", "%T ")
            return
        self.failed = self.failed or name
        if self.work:
            self.tell(f"{name} is not proved; what is at work beside it ends first")

    def tell_wait(self, name):
        """Says once that a crate's proof waits for that of another folder."""
        line = read(f"{out_of(name)}/build.log").partition("\n")[0]
        if " another copy of the repository " in line and line not in self.waits:
            self.waits.add(line)
            say(line)

    def is_changed(self):
        return is_old(f"{out_of(self.top)}/begun", self.uses)

    def prove_all(self):
        """Proves all crates but the top one, as many at once as there are processors. Once one is not proved, or a
        source changes, no other is begun. Those that stand on no other share the processors that are free; the others,
        which load many libraries, gain nothing by further jobs."""
        graph = TopologicalSorter({it: set(self.uses[it]) - self.built for it in self.left()[0] if it != self.top})
        graph.prepare()
        ready, is_open = [], True
        while self.work or is_open and not self.failed and graph.is_active():
            ready = sorted([*ready, *graph.get_ready()], key=lambda it: -self.chains[it])
            while ready and is_open and len(self.work) < self.most:
                is_open = not self.failed and not self.is_changed()
                if is_open:
                    free = self.most - sum(jobs for _, jobs, _ in self.work.values())
                    self.begin(ready[0], 1 if self.uses[ready[0]] else max(1, free // len(ready)))
                    del ready[0]
            self.wait()
            for name in list(self.work):
                self.tell_wait(name)
                if self.work[name][0].poll() is not None:
                    self.end(name)
                    graph.done(*{name} & self.built)
        self.stop_on_change()
        if self.failed:
            raise Failure(f"{self.failed} was not proved", f"crates/{self.failed}/out/build.log")

    def stop_on_change(self):
        if self.is_changed():
            raise Failure("a source changed while it was proved, so begin again")

    def build(self, finish):
        """Proves what is not proved of the crates below, and has the top crate built. It raises Failure or OSError."""
        if not shutil.which("rt"):
            raise Failure("there is no command rt: it comes with the Rattle toolchain whose version README.md names; "
                          "put its folder bin on PATH")
        for it in SIGNALS:
            signal.signal(it, self.hear)
        os.makedirs(out_of(self.top), exist_ok=True)
        write(f"{out_of(self.top)}/begun", "")
        self.kit = told_of(["rt", "version"])
        memory = re.findall(r"^MemAvailable: *(\d+) kB$", read("/proc/meminfo"), re.M) or [4_000_000]
        self.most = max(1, min(int(told_of(["nproc"])), int(memory[0]) // 2_000_000))  # 2 GB for each
        self.start, self.pace = time.monotonic(), pace()
        self.guess_built()
        names, self.whole = self.left()
        told = f"{in_minutes(self.whole * self.pace)} on a machine of this speed, longer beside other work"
        self.tell(f"proving {len(names)} of {len(self.uses)} crates: {told}; later only what changed")
        if self.name == "dex":
            self.tell("meanwhile, ./try with the same words runs the program much sooner, with nothing proved")
        if len(names) > 1:
            self.prove_all()
            self.tell(f"now {self.what} itself is proved and built, two or three minutes", "%T ")
        finish()
        self.wait()
        self.stop_on_change()

    def build_top(self, words, log):
        """Has the toolchain prove and build the top crate in its own folder, by all processors."""
        process = self.run(words, self.top, self.most, f"{ROOT}/crates/{self.top}", log)
        while process.poll() is None:
            self.wait()
        self.work.clear()
        return process.returncode

    def stop(self):
        """Ends all that is at work."""
        for process, *_ in self.work.values():
            process.terminate()
        for process, *_ in self.work.values():
            process.wait()
        self.work.clear()
        if self.turn is not None:
            self.leave_rooms()

    def ends_of(self, does):
        """Does a build, and ends with status 70, or that of a signal, where it comes to nothing; it says why."""
        command, nothing = "library/build", f"{self.what} is not built"
        if self.name == "dex":
            command, nothing = "./dex", "nothing was run"
        try:
            try:
                return does()
            except (Failure, OSError):
                self.stop()
                raise
        except Failure as failure:
            why, *log = failure.args
            for it in log:
                say("\n".join(read(f"{ROOT}/{it}").splitlines()[-20:]))
                why += f" (above: the end of {it})"
            if shutil.disk_usage(ROOT).free < 1_000_000:
                self.tell("the disk is full")
        except OSError as error:
            where = os.path.relpath(os.fsdecode(error.filename), ROOT) if error.filename else "this folder"
            why = f"{where}: {error.strerror}"
        if self.signal:
            self.tell(f"stopped, and {nothing}; what is proved is kept, and the next {command} goes on from there")
            raise SystemExit(128 + self.signal)
        self.tell(f"{why}; {nothing}")
        raise SystemExit(70)

    def free(self, is_built):
        """Removes what all crates keep for their next proofs, where what they are for is built."""
        self.take_turn()
        if not is_built():
            raise Failure("nothing was removed: the program is not built, and what the crates keep shortens its build")
        freed = 0
        for name in read_lines():
            if os.path.isdir(f"{out_of(name)}/incremental"):
                with self.alone_in(name) as own:
                    walk = os.walk(f"{own}/incremental")
                    freed += sum(os.lstat(f"{at}/{it}").st_blocks for at, _, files in walk for it in files)
                    shutil.rmtree(f"{own}/incremental")
        self.tell(f"removed {freed * 512 // 2**20} MB: what the crates kept of their proofs (crates/*/out/incremental)")
        self.tell("the program and the libraries stay; a crate that changes is proved from nothing the next time")
