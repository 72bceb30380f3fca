"""Each system call of each command: failing, interrupted, only half done, or the last thing that the program does."""
import itertools
import os
import shutil

from tools import check, folder, leftovers, write_file

DATE = "2014-03-09T09:00:00"


class Try:
    """One command on a store of two files, and what it makes of it."""

    def __init__(self, program, path, number):
        self.program, self.path = program, path
        self.store, self.new = path / f"study-{number}", path / f"new-{number}"
        self.out, self.log = path / f"out-{number}.xml", path / f"log-{number}"
        self.files = [write_file(path / name, name, prior) for name, prior in (("A", None), ("B", "A"), ("C", "B"))]
        base = path / "base"
        if not base.exists():
            program.expect(0, base, "open", "ST", "V1")
            program.expect(0, base, "import", *self.files[:2])
        shutil.copy(base, self.store)

    def words(self, command):
        return {
            "open": (self.new, "open", "ST", "V1"),
            "open --over": (self.store, "open", "SU", "V1", "--over"),
            "import": (self.store, "import", self.files[2]),
            "withdraw": (self.store, "withdraw", "B"),
            "snapshot": (self.store, "snapshot", "S", DATE, self.out),
        }[command]

    def run(self, command, **test):
        environment = dict(os.environ, LD_PRELOAD=str(self.program.build / "preload.so"), ASAN_OPTIONS="verify_asan_link_order=0")
        environment.update({f"ODM_TEST_{name}": str(value) for name, value in test.items()})
        return self.program.run(*self.words(command), env=environment)

    def target(self, command):
        return self.new if command == "open" else self.out if command == "snapshot" else self.store

    def contents(self, command):
        target = self.target(command)
        return target.read_bytes() if target.exists() else None


COMMANDS = ("open", "open --over", "import", "withdraw", "snapshot")


def calls_of(program, path, command):
    """The calls of a run that goes well, in their order, and what it leaves."""
    trial = Try(program, path, f"plain-{COMMANDS.index(command)}")
    answer = trial.run(command, LOG=trial.log)
    check(answer.status == 0, f"{command}: {answer}")
    lines = [line.split(" ", 2) for line in trial.log.read_text().splitlines()]
    return [(name, about) for _, name, about in lines], trial.contents(command)


def check_order(command, calls):
    """The file is written, then flushed, then gets its name, then the folder is flushed, and only then the answer is printed."""
    names = [f"{name} {about}" if name in ("write", "fsync") else name for name, about in calls]
    steps = ("write file", "fsync file", "link" if "link" in names else "rename", "fsync folder", "write answer")
    check(all(step in names for step in steps), f"{command}: a step is missing: {names}")
    order = [names.index(step) for step in steps]
    check(order == sorted(order) and names.count("fsync file") == 1, f"{command}: {names}")
    last_write = max(i for i, name in enumerate(names) if name == "write file")
    check(last_write < names.index("fsync file"), f"{command}: written after it was flushed: {names}")


def one(program, path, number, command, calls, after, at, what):
    """The store is as before or as after, and "accepted" was printed only if it is as after. Where a call failed the status says so, and nothing is left
    behind."""
    name, about = calls[at - 1]
    trial = Try(program, path, number)
    before = trial.contents(command)
    answer = trial.run(command, AT=at, DO=what)
    now, told = trial.contents(command), "accepted" in answer.out
    place = f"{command}, {what} at call {at} ({name} {about}): {answer}"
    check(now in (before, after), f"{place}: neither as before nor as after")
    check(now == after or not told, f"{place}: told, but not kept")
    if what == "SIGINT":
        check(told == (now == after), f"{place}: kept {now == after}")
    elif what in ("EINTR", "short") and name in ("read", "write", "fsync"):
        check(answer.status == 0 and told and now == after, place)
    elif what in ("ENOSPC", "EIO") and name != "unlink":
        check(answer.status == 3 and not told, place)
        check(now == (after if (name, about) in (("fsync", "folder"), ("write", "answer")) else before), place)
    if what not in ("kill", "half"):
        check(name == "unlink" or not leftovers(path), f"{place}: {leftovers(path)}")
    sweep(program, trial, command)


def sweep(program, trial, command):
    """The next writer removes what was left."""
    store = trial.new if command == "open" and trial.new.exists() else trial.store
    program.expect(1, store, "withdraw", "NOBODY")
    if command == "snapshot":
        program.run(trial.store, "snapshot", "S", DATE, trial.out, "--over")
    if command == "open" and not trial.new.exists():
        program.expect(0, trial.new, "open", "ST", "V1")
    check(not leftovers(trial.path), f"{command}: {leftovers(trial.path)}")


# What can be done to which calls; the others to all.
ONLY = {"half": ("write",), "short": ("write", "read"), "EINTR": ("write", "read", "fsync")}


def calls(program):
    tried = {what: 0 for what in ("kill", "half", "SIGINT", "ENOSPC", "EIO", "EINTR", "short")}
    with folder() as path:
        for number, command in enumerate(COMMANDS):
            names, after = calls_of(program, path, command)
            check_order(command, names)
            for at, what in itertools.product(range(1, len(names) + 1), tried):
                if what not in ONLY or names[at - 1][0] in ONLY[what]:
                    tried[what] += 1
                    one(program, path, f"{number}-{at}-{what}", command, names, after, at, what)
    counts = ", ".join(f"{count} {what}" for what, count in tried.items())
    return f"each system call of {len(COMMANDS)} commands: {counts}; never told before it was kept, never half kept"
