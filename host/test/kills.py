"""kill -9 and SIGINT at random moments."""
import contextlib
import random
import signal
import subprocess
import threading

from tools import Wrong, begin, check, folder, leftovers, write_file

FULL = 56


class Pace:
    """Within what time a run is stopped: so that about two of three are stopped before they end, however fast the disk is just now."""

    def __init__(self):
        self.limit = 0.02

    def stop(self, run, how):
        """Lets it run for a random time, and sends the signal. Answers what it printed."""
        with contextlib.suppress(subprocess.TimeoutExpired):
            run.wait(random.uniform(0, self.limit))
        run.send_signal(how)
        out = run.communicate()[0]
        self.limit = min(max(self.limit * (1.02 if run.returncode < 0 else 0.96), 0.002), 2)
        return out


class Counts:
    def __init__(self):
        self.stopped = self.told = self.kept = self.nothing = self.finished = self.left = 0

    def note(self, run, told, stands):
        self.stopped += run.returncode < 0
        self.finished += run.returncode >= 0
        self.told += told and run.returncode < 0
        self.kept += stands and not told
        self.nothing += not stands and not told

    def __str__(self):
        return (f"{self.stopped} stopped ({self.finished} more were done before it came): {self.told} after their answer, "
                f"{self.kept} kept but not told yet, {self.nothing} not kept; {self.left} fresh files left behind, all swept away")


def alone(program, path, stops, how):
    """One writer after another, each stopped. After each stop the store is whole, all that was told stands, and nothing else but this run's own file."""
    counts, pace, store, standing, number = Counts(), Pace(), None, [], 0
    while counts.stopped < stops:
        if store is None or len(standing) >= FULL:
            number += 1
            store, standing = begin(program, path, f"alone-{how.name}-{number}"), []
        if len(standing) > 3 and random.random() < 0.2:
            oid, expected = standing[-1], standing[:-1]
            run = program.start(store, "withdraw", oid)
        else:
            oid = f"K{counts.stopped}-{counts.finished}"
            expected = standing + [oid]
            run = program.start(store, "import", write_file(path / "f", oid, standing[-1] if standing else None))
        told = b"accepted" in pace.stop(run, how)
        now = program.standing(store)
        check(now == expected if told else now in (standing, expected), f"{oid}: told {told}, stood {standing}, stands {now}")
        counts.note(run, told, now == expected)
        if how == signal.SIGINT:
            check(told == (now == expected), f"{oid}: told {told}, kept {now == expected}: a signal came between")
            check(not leftovers(path), "a signal left a fresh file behind")
        counts.left += len(leftovers(path)) > 0 and clean(program, path, store)
        standing = now
    return counts


def clean(program, path, store):
    """The next writer sweeps away what is left, also one that is refused."""
    left = len(leftovers(path))
    program.expect(1, store, "withdraw", "NOBODY")
    check(not leftovers(path), f"leftovers: {leftovers(path)}")
    return left


class Shared:
    """What three writers of one store were told, and what they left unsaid."""

    def __init__(self, stops):
        self.lock, self.stops, self.counts = threading.Lock(), stops, Counts()
        self.accepted, self.unsaid, self.refused, self.wrong = set(), set(), set(), None


def write_and_stop(program, path, store, shared, name):
    try:
        turn, pace = 0, Pace()
        while shared.wrong is None:
            standing = program.standing(store)
            if len(standing) >= FULL or shared.counts.stopped >= shared.stops:
                return
            turn += 1
            oid = f"{name}-{turn}"
            run = program.start(store, "import", write_file(path / name, oid, standing[-1] if standing else None))
            out = pace.stop(run, signal.SIGKILL) if random.random() < 0.8 else run.communicate()[0]
            with shared.lock:
                (shared.accepted if b"accepted" in out else shared.refused if b"refused" in out else shared.unsaid).add(oid)
                shared.counts.stopped += run.returncode < 0
                shared.counts.finished += run.returncode >= 0
                shared.counts.told += b"accepted" in out and run.returncode < 0
    except Wrong as wrong:
        shared.wrong = wrong


def with_others(program, path, stops):
    """Three writers on one store, each stopped again and again."""
    number, total = 0, Counts()
    while total.stopped < stops:
        number += 1
        store, shared = begin(program, path, f"shared-{number}"), Shared(stops - total.stopped)
        threads = [threading.Thread(target=write_and_stop, args=(program, path, store, shared, f"T{i}")) for i in range(3)]
        for thread in threads:
            thread.start()
        for thread in threads:
            thread.join()
        if shared.wrong:
            raise shared.wrong
        standing = set(program.standing(store))
        check(shared.accepted <= standing, f"accepted and lost: {sorted(shared.accepted - standing)}")
        check(standing <= shared.accepted | shared.unsaid, f"refused and kept: {sorted(standing - shared.accepted - shared.unsaid)}")
        total.left += len(leftovers(path)) > 0 and clean(program, path, store)
        total.stopped += shared.counts.stopped
        total.finished += shared.counts.finished
        total.told += shared.counts.told
        total.kept += len(standing & shared.unsaid)
        total.nothing += len(shared.unsaid - standing)
    return total


def kills(program, count):
    random.seed(2)
    with folder() as path:
        one, more = alone(program, path, (count + 1) // 2, signal.SIGKILL), with_others(program, path, count // 2)
    return f"{one.stopped + more.stopped} kills; alone {one}; three writers at once {more}; nothing accepted lost, nothing refused kept"


def interrupts(program, count):
    random.seed(3)
    with folder() as path:
        return f"SIGINT: {alone(program, path, count, signal.SIGINT)}; what was kept was told"
