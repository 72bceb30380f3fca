"""What can go wrong with files: no room, no permission, folders, links, damage. The program says so, and the store is as it was."""
import contextlib
import os
import resource
import shutil
import stat
import struct
import subprocess
import zlib

from tools import Program, begin, check, file_text, folder, leftovers, write_file
from writers import hold

NOBODY = 65534
HEAD = 24


def unchanged(program, store, status, *words, **how):
    """A call that fails with this status, and leaves every byte, the mode and no fresh file."""
    before, mode = store.read_bytes(), store.stat().st_mode
    answer = program.expect(status, store, *words, **how)
    check("accepted" not in answer.out, f"accepted, but {answer}")
    check(store.read_bytes() == before and store.stat().st_mode == mode, f"{words}: the store has changed")
    check(not leftovers(store.parent), f"{words}: {leftovers(store.parent)}")
    return answer


def limit_files():
    resource.setrlimit(resource.RLIMIT_FSIZE, (50000, 50000))


# On a file system of 256 KiB there is room for the store and the fresh file until something else fills it.
SMALL_DISK = """
mount -t tmpfs -o size=256k none "$2" || exit 77
"$1" "$2/study" open ST V1 || exit 10
cp "$2/study" "$3/kept"
head -c 140000 /dev/zero > "$2/filler" || exit 11
"$1" "$2/study" import "$3/f"
[ $? = 3 ] || exit 12
cmp "$2/study" "$3/kept" || exit 13
[ "$(ls -A "$2" | wc -l)" = 2 ] || exit 14
"$1" "$2/new" open ST V1
[ $? = 3 ] || exit 15
[ -e "$2/new" ] && exit 16
rm "$2/filler"
"$1" "$2/study" import "$3/f" || exit 17
"$1" "$2/study" verify || exit 18
"""


def small_disk(program, path):
    """A full disk, where the system lets a test have one of its own."""
    (path / "disk").mkdir()
    for how in (["unshare", "-rm"], ["unshare", "-m"]):
        with contextlib.suppress(FileNotFoundError):
            run = subprocess.run([*how, "sh", "-c", SMALL_DISK, "sh", program.path, path / "disk", path], stdout=subprocess.PIPE, stderr=subprocess.STDOUT)
            if run.returncode not in (1, 77):
                check(run.returncode == 0, f"a full disk: step {run.returncode}: {run.stdout.decode()}")
                return "a full disk of 256 KiB"
    return "no small disk to be had here"


def no_room(program, path):
    store, file = begin(program, path), write_file(path / "f", "F")
    answer = unchanged(program, store, 3, "import", file, preexec_fn=limit_files)
    check("nothing has changed" in answer.trouble, f"{answer}")
    unchanged(program, store, 3, "open", "ST", "V1", "--over", preexec_fn=limit_files)
    program.expect(3, path / "new", "open", "ST", "V1", preexec_fn=limit_files)
    check(not (path / "new").exists() and not leftovers(path), "a store that could not be begun")
    return 3


def no_permission(program, path):
    """As somebody who is not root, to whom everything is permitted. He may not be able to reach the folder that the program was built in."""
    shutil.copy(program.path, path)
    program = Program(path)
    who = {"user": NOBODY, "group": NOBODY, "extra_groups": []} if os.getuid() == 0 else {}
    closed = path / "closed"
    closed.mkdir()
    store, file = begin(program, closed), write_file(path / "f", "F")
    if who:
        for owned in (closed, store):
            os.chown(owned, NOBODY, NOBODY)
    store.chmod(0o400)
    unchanged(program, store, 3, "import", file, **who)
    store.chmod(0o000)
    check(program.run(store, "status", **who).status == 3, "a store that may not be read")
    store.chmod(0o600)
    closed.chmod(0o555)
    unchanged(program, store, 3, "import", file, **who)
    check(program.run(closed / "new", "open", "ST", "V1", **who).status == 3, "a folder that may not be written")
    closed.chmod(0o755)
    file.chmod(0o000)
    unchanged(program, store, 3, "import", file, **who)
    file.chmod(0o644)
    program.expect(0, store, "import", file, **who)
    if not who:
        return 5
    # A store of another owner in a folder where everybody may write: its owner could not be kept.
    closed.chmod(0o777)
    os.chown(store, 0, 0)
    store.chmod(0o666)
    unchanged(program, store, 3, "import", write_file(path / "g", "G", "F"), **who)
    return 6


def rights_kept(program, path):
    store, last = begin(program, path), None
    owner = (NOBODY, NOBODY) if os.getuid() == 0 else (os.getuid(), os.getgid())
    os.chown(store, *owner)
    for mode in (0o600, 0o640, 0o644, 0o660, 0o664):
        store.chmod(mode)
        oid = f"M{mode}"
        program.expect(0, store, "import", write_file(path / "f", oid, last), umask=0o077)
        now = store.stat()
        check(stat.S_IMODE(now.st_mode) == mode and (now.st_uid, now.st_gid) == owner, f"mode {mode:o} or owner {owner} not kept: {now}")
        last = oid
    store.chmod(0o600)
    program.expect(0, store, "open", "ST", "V1", "--over", umask=0)
    check(stat.S_IMODE(store.stat().st_mode) == 0o600 and store.stat().st_uid == owner[0], "open --over keeps the mode and the owner")
    program.expect(0, path / "masked", "open", "ST", "V1", umask=0o027)
    check(stat.S_IMODE((path / "masked").stat().st_mode) == 0o640, "a new store has the mode that the mask leaves")
    return 7


def no_file(program, path):
    """Folders, pipes and names that lead nowhere."""
    file = write_file(path / "f", "F")
    os.mkfifo(path / "pipe")
    (path / "here").mkdir()
    (path / "dangling").symlink_to(path / "nothing")
    (path / "loop").symlink_to(path / "loop")
    names = [path / "here", path / "pipe", path / "dangling", path / "loop", path / "none/study", f"{file}/study", "", f"{path}/none/", "/dev/null"]
    count = 0
    for name in names:
        for words in (("import", file), ("status",), ("open", "ST", "V1"), ("open", "ST", "V1", "--over")):
            program.expect(3, name, *words)
            count += 1
    check(not (path / "nothing").exists() and (path / "dangling").is_symlink(), "a dangling link is left as it is")
    store = begin(program, path, "plain")
    for name in (path / "here", path / "nothing", path / "loop"):
        unchanged(program, store, 3, "import", name)
    return count + 3


def links(program, path):
    """A link stays a link, and the file that it leads to is changed where it is."""
    (path / "far").mkdir()
    store = begin(program, path / "far")
    (path / "near").symlink_to("far/study")
    (path / "nearer").symlink_to(path / "near")
    program.expect(0, path / "nearer", "import", write_file(path / "f", "F"))
    program.expect(0, path / "near", "import", write_file(path / "g", "G", "F"))
    check(program.standing(store) == ["F", "G"] and os.readlink(path / "near") == "far/study" and (path / "nearer").is_symlink(), "links")
    program.expect(1, path / "near", "open", "ST", "V1")
    program.expect(0, path / "near", "open", "ST", "V1", "--over")
    check(program.standing(store) == [] and (path / "near").is_symlink(), "open --over through a link")
    check(sorted(os.listdir(path)) == ["f", "far", "g", "near", "nearer"] and os.listdir(path / "far") == ["study"], "nothing beside it")
    return 4


def sweeps(program, path):
    """What a killed run has left is removed; what a living one holds, and what is not a fresh file of this store, stays."""
    store = begin(program, path)
    dead, alive = path / ".study.odm-dead00", path / ".study.odm-alive0"
    others = [path / name for name in (".other.odm-dead00", ".study.odm-longer0", ".study.odm-a", "study.odm-dead00", ".studyodm-dead00")]
    for file in (dead, alive, *others):
        file.write_bytes(b"half")
    (path / ".study.odm-folder").mkdir()
    (path / ".study.odm-linked").symlink_to(others[0])
    second = path / ".study.odm-second"
    os.link(store, second)
    with open(alive, "r+b") as held:
        hold(held)
        program.expect(0, store, "import", write_file(path / "f", "F"))
        check(alive.exists(), "a fresh file that a process holds was removed")
    check(not dead.exists() and not second.exists(), "a dead run's file was left")
    check(all(file.exists() for file in others) and (path / ".study.odm-folder").is_dir() and (path / ".study.odm-linked").is_symlink(), "too much was removed")
    program.expect(0, store, "withdraw", "F")
    check(not alive.exists(), "left, though nobody holds it any more")
    return 4


def closed_files(program, path):
    """With standard files closed the store's file must not get their numbers."""
    store = begin(program, path)
    for turn, closed in enumerate(([1], [0, 1], [0, 1, 2], [2], [0])):
        file = write_file(path / "f", f"F{turn}", f"F{turn - 1}" if turn else None)
        run = program.start(store, "import", file, preexec_fn=lambda: [os.close(number) for number in closed])
        run.communicate()
        check(run.returncode == (3 if 1 in closed else 0), f"closed {closed}: status {run.returncode}")
        check(len(program.standing(store)) == turn + 1, f"closed {closed}: the store")
    return 5


def troubles(program):
    count = 0
    for part in (no_room, no_permission, rights_kept, no_file, links, sweeps, closed_files):
        with folder() as path:
            count += part(program, path)
    with folder() as path:
        write_file(path / "f", "F")
        disk = small_disk(program, path)
    return f"{count} troubles with room, permissions, folders, links and leftovers, {disk}"


def with_checksum(head, rest):
    return head + struct.pack("<I", zlib.crc32(rest, zlib.crc32(head))) + rest


def damaged_files(good):
    """Damage of each sort, with a word of what has to be told."""
    head, rest = good[:HEAD - 4], good[HEAD:]
    yield "empty", b""
    for length in (1, 7):
        yield "no store", good[:length]
    for length in (8, 23):
        yield "within its head", good[:length]
    for length in (HEAD, len(good) // 2, len(good) - 1):
        yield "its head says", good[:length]
    for more in (1, 4096):
        yield "its head says", good + bytes(more)
    for place in (HEAD, HEAD + 4, HEAD + 20, len(good) - 54592, len(good) - 54592 + 128, len(good) - 1, len(good) - 49152, 20, 23, *range(100, len(good), 1999)):
        yield "checksum", good[:place] + bytes([good[place] ^ 1 << place % 8]) + good[place + 1:]
    yield "checksum", head + bytes(4) + rest
    for layout in (0, 2):
        yield f"layout {layout} (6341 numbers, 54592 bytes); this program keeps layout 1 (6341 numbers, 54592 bytes)", with_checksum(head[:8] + struct.pack("<I", layout) + head[12:], rest)
    yield "(8390 numbers, 55232 bytes)", with_checksum(head[:8] + struct.pack("<III", 12, 8390, 55232), bytes(8390 * 4 + 55232))
    yield "without mark", rest
    yield "no store", bytes(len(good))
    yield "no store", file_text("F").encode()
    yield "refused 2", with_checksum(head, bytes(len(rest)))
    yield "refused 2", with_checksum(head, struct.pack("<I", 65) + rest[4:])
    yield "refused 2", with_checksum(head, rest[:-1] + b"x")


def damages(program):
    commands = (("import", "f"), ("withdraw", "F"), ("snapshot", "S", "2014-03-09T09:00:00"), ("check", "f"), ("files",), ("table",), ("status",), ("verify",))
    count = 0
    with folder() as path:
        good = begin(program, path, "good")
        write_file(path / "f", "F")
        program.expect(0, good, "import", write_file(path / "g", "G"))
        store = path / "study"
        for number, (words, contents) in enumerate(damaged_files(good.read_bytes())):
            store.write_bytes(contents)
            for command in commands if number % 5 == 0 else (commands[0], commands[-1]):
                answer = unchanged(program, store, 4, *command, cwd=path)
                check(words in answer.trouble, f"{command}: {words!r} was expected: {answer}")
                count += 1
            unchanged(program, store, 1, "open", "ST", "V1")
            count += 1
        program.expect(0, store, "open", "ST", "V1", "--over")
        check(program.standing(store) == [], "a damaged store is begun anew")
    return f"{count} calls on {number + 1} damaged stores, each told by its name, none changed"
