"""Several writers at once: of what was accepted nothing is lost, and of what was refused nothing is kept."""
import fcntl
import itertools
import os
import struct
import threading
import time

from tools import Wrong, begin, check, folder, leftovers, write_file


class Log:
    """What the writers of one store were told."""

    def __init__(self):
        self.lock = threading.Lock()
        self.tried = self.refused = 0
        self.accepted, self.withdrawn = set(), set()
        self.wrong = None


def take_turn(program, store, path, log, oid, turn):
    """Mostly an import of a file that names the last one standing, now and then a withdrawal of that. Others may come before, and then it is refused."""
    standing = program.standing(store)
    last = standing[-1] if standing else None
    if last and turn % 7 == 6:
        answer, done = program.run(store, "withdraw", last), log.withdrawn
        oid = last
    else:
        answer, done = program.run(store, "import", write_file(path / oid, oid, last)), log.accepted
    check(answer.status in (0, 1), f"{answer}")
    check((answer.status == 0) == ("accepted" in answer.out), f"{answer}")
    with log.lock:
        log.tried += 1
        if answer.status == 0:
            done.add(oid)
        else:
            log.refused += 1
    return len(standing)


def write_until_full(program, store, path, log, name, most):
    try:
        for turn in itertools.count():
            if log.wrong or take_turn(program, store, path, log, f"W{name}-{turn}", turn) >= most:
                return
    except Wrong as wrong:
        log.wrong = wrong


def race(program, writers, most):
    """Writers on one store until it has so many files."""
    log = Log()
    with folder() as path:
        store = begin(program, path)
        threads = [threading.Thread(target=write_until_full, args=(program, store, path, log, i, most)) for i in range(writers)]
        for thread in threads:
            thread.start()
        for thread in threads:
            thread.join()
        if log.wrong:
            raise log.wrong
        standing = program.standing(store)
        check(len(set(standing)) == len(standing), f"a file stands twice: {standing}")
        check(set(standing) == log.accepted - log.withdrawn,
              f"accepted and lost: {sorted(log.accepted - log.withdrawn - set(standing))}, kept and not told: {sorted(set(standing) - log.accepted)}")
        check(program.expect(0, store, "verify").status == 0 and not leftovers(path), "leftovers")
    return log


def at_once(program, writers, rounds):
    """All start at the same moment with a file that could be the next one: exactly one is taken, and it stands."""
    with folder() as path:
        store, last = begin(program, path), None
        for turn in range(rounds):
            oids = [f"R{turn}-{i}" for i in range(writers)]
            files = [write_file(path / oid, oid, last) for oid in oids]
            runs = [program.start(store, "import", file) for file in files]
            told = [run.communicate()[0] for run in runs]
            accepted = [oid for oid, out in zip(oids, told) if b"accepted" in out]
            check(len(accepted) == 1, f"{len(accepted)} of {writers} accepted at once")
            check(all(run.returncode in (0, 1) for run in runs), "another status")
            check(program.standing(store)[-1:] == accepted, "accepted and lost")
            last = accepted[0]
    return writers * rounds


def opens_at_once(program, writers, rounds):
    """One store is begun, the others find it there."""
    with folder() as path:
        for turn in range(rounds):
            runs = [program.start(path / f"s{turn}", "open", f"ST{i}", "V1") for i in range(writers)]
            told = [run.communicate() for run in runs]
            statuses = [run.returncode for run in runs]
            check(sorted(statuses) == [0] + [1] * (writers - 1), f"{statuses} {told}")
            study = program.json(path / f"s{turn}", "status")[0]["study"]
            check(study == f"ST{statuses.index(0)}", "another one's store")
        check(not leftovers(path), "leftovers")
    return writers * rounds


def hold(file):
    """Takes the lock as the program does: byte 0 of the file, by an open file description lock; who holds it is told by byte 1."""
    for how, byte in ((37, 0), (fcntl.F_SETLK, 1)):  # 37 is F_OFD_SETLK
        fcntl.fcntl(file, how, struct.pack("hhqqi", fcntl.F_WRLCK, os.SEEK_SET, byte, 1, 0))


def waits(program):
    """A second writer waits so long as it is told, and then says who holds the store. Readers do not wait. The lock ends with its file."""
    with folder() as path:
        store = begin(program, path)
        file = write_file(path / "f", "F")
        with open(store, "r+b") as held:
            hold(held)
            for seconds in (0, 1):
                start = time.monotonic()
                answer = program.expect(3, store, "import", file, "--wait", seconds)
                check(f"held by process {os.getpid()}" in answer.trouble, f"{answer}")
                check(seconds <= time.monotonic() - start < seconds + 2, "waited another time")
            program.expect(0, store, "status")
            waiting = program.start(store, "import", file)
            time.sleep(0.3)
            check(waiting.poll() is None, "it did not wait")
        check(waiting.wait() == 0, "it did not go on")
        waiting.communicate()
        check(program.standing(store) == ["F"], "the store after waiting")
    return 4


def writers(program):
    lines = []
    for count, rounds in ((2, 3), (8, 2)):
        logs = [race(program, count, 30) for _ in range(rounds)]
        tried, refused = sum(log.tried for log in logs), sum(log.refused for log in logs)
        lines.append(f"{count} writers at once: {tried} calls tried, {tried - refused} accepted and none lost, {refused} refused and none kept")
    same = at_once(program, 2, 50) + at_once(program, 8, 10)
    begun = opens_at_once(program, 2, 25) + opens_at_once(program, 8, 15)
    lines.append(f"{same} imports and {begun} opens that only one of 2 or 8 could win; {waits(program)} waits")
    return "; ".join(lines)
