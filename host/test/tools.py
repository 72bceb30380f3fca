"""What the tests share: the program under test, a folder to work in, files to import, and a way to say what is wrong."""
import contextlib
import json
import os
import pathlib
import shutil
import subprocess
import tempfile

HOST = pathlib.Path(__file__).resolve().parent.parent
CHAIN = HOST / "chain"


class Wrong(Exception):
    """The program did something that it must not do."""


def check(right, words):
    if not right:
        raise Wrong(words)


class Answer:
    """What a run printed, and how it ended."""

    def __init__(self, done):
        self.status = done.returncode
        self.out = done.stdout.decode(errors="replace")
        self.trouble = done.stderr.decode(errors="replace")

    def __str__(self):
        return f"status {self.status}, printed {self.out!r}, {self.trouble!r}"


class Program:
    """odm_store, as the tests run it, and what was built beside it."""

    def __init__(self, build):
        self.build = pathlib.Path(build).resolve()
        self.path = str(self.build / "odm_store")

    def start(self, *words, **how):
        how.setdefault("stdout", subprocess.PIPE)
        how.setdefault("stderr", subprocess.PIPE)
        return subprocess.Popen([self.path, *map(str, words)], **how)

    def run(self, *words, given=None, **how):
        how.setdefault("stdin", subprocess.DEVNULL if given is None else subprocess.PIPE)
        run = self.start(*words, **how)
        out, trouble = run.communicate(given)
        return Answer(subprocess.CompletedProcess(run.args, run.returncode, out or b"", trouble or b""))

    def expect(self, status, *words, **how):
        """Runs it; another exit status is wrong."""
        answer = self.run(*words, **how)
        check(answer.status == status, f"{' '.join(map(str, words))}: status {status} was expected: {answer}")
        return answer

    def json(self, *words, **how):
        """The objects that it prints."""
        return [json.loads(line) for line in self.run(*words, "--json", **how).out.splitlines()]

    def standing(self, store):
        """The FileOIDs of the standing files. That it can be read at all says that the store is whole and valid."""
        answer = self.expect(0, store, "files", "--json")
        return [file["file_oid"] for file in json.loads(answer.out)["files"]]


@contextlib.contextmanager
def folder():
    """A fresh folder, gone afterwards."""
    path = pathlib.Path(tempfile.mkdtemp(prefix="odm_store-test-"))
    path.chmod(0o755)
    try:
        yield path
    finally:
        shutil.rmtree(path, ignore_errors=True)


def leftovers(path):
    """Fresh files of the stores in a folder."""
    return [name for name in os.listdir(path) if name.startswith(".") and ".odm-" in name]


def file_text(oid, prior=None, key=None, word="Insert"):
    """A file that makes one subject."""
    before = f' PriorFileOID="{prior}"' if prior else ""
    return (
        '<?xml version="1.0" encoding="UTF-8"?>\n'
        f'<ODM xmlns="http://www.cdisc.org/ns/odm/v1.3" FileType="Transactional" FileOID="{oid}"{before}\n'
        '     CreationDateTime="2014-03-01T09:00:00" ODMVersion="1.3.2">\n'
        '  <ClinicalData StudyOID="ST" MetaDataVersionOID="V1">\n'
        f'    <SubjectData SubjectKey="{key or oid}" TransactionType="{word}"/>\n'
        "  </ClinicalData>\n"
        "</ODM>\n"
    )


def write_file(path, oid, prior=None, **how):
    path.write_text(file_text(oid, prior, **how))
    return path


def begin(program, path, name="study"):
    """A new store in a folder."""
    store = path / name
    program.expect(0, store, "open", "ST", "V1")
    return store
