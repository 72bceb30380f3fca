#!/usr/bin/env python3
"""Programs that are broken on purpose: for each edit in faults/ the sources are changed, built, and tested. Each test that the edit names has to fail.

An edit has a file of src, the tests, and pairs of old and new text; each old text stands in the file exactly once.
"""
import os
import pathlib
import shutil
import subprocess
import sys
import tempfile

TEST = pathlib.Path(__file__).resolve().parent
HOST = TEST.parent


def read_edit(path):
    edit = {"pairs": []}
    for line in path.read_text().splitlines():
        name, _, words = line.partition(": ")
        if name == "old":
            old = words
        elif name == "new":
            edit["pairs"].append((old, words))
        elif not line.startswith("#"):
            edit[name] = words
    return edit


def build(edit, folder):
    """The program with the edit, without optimisation, and the tests that are built beside it."""
    shutil.copytree(HOST / "src", folder / "src")
    path = folder / "src" / edit["file"]
    text = path.read_text()
    for old, _ in edit["pairs"]:
        if text.count(old) != 1:
            sys.exit(f"faults: {old!r} stands {text.count(old)} times in {edit['file']}")
    places = {old: f"\0{number}\0" for number, (old, _) in enumerate(edit["pairs"])}
    for old, _ in edit["pairs"]:
        text = text.replace(old, places[old])
    for old, new in edit["pairs"]:
        text = text.replace(places[old], new)
    path.write_text(text)
    command = ["make", "-s", "-C", HOST, "tests", f"SRC={folder}/src", f"BUILD={folder}/build", "CFLAGS=-O0 -w"]
    run = subprocess.run(command, stdout=subprocess.PIPE, stderr=subprocess.STDOUT, env=dict(os.environ, MAKEFLAGS=""))
    if run.returncode != 0:
        sys.exit(f"faults: not built: {run.stdout.decode()}")


def survives(test, folder):
    """Whether a test does not see the fault. It has to say so: a test that breaks off does not count."""
    command = [sys.executable, TEST / "run.py", "--build", folder / "build", "--kills", "200", "--files", "10", test]
    run = subprocess.run(command, stdout=subprocess.PIPE, stderr=subprocess.STDOUT)
    return run.returncode != 1 or "FAILED" not in run.stdout.decode()


def main():
    edits, found, missed = sorted((TEST / "faults").glob("*.edit")), [], []
    for path in edits:
        edit = read_edit(path)
        with tempfile.TemporaryDirectory(prefix="odm_store-fault-") as name:
            build(edit, pathlib.Path(name))
            for test in edit["test"].split():
                (missed if survives(test, pathlib.Path(name)) else found).append(f"{path.stem} by {test}")
    print(f"faults: {len(edits)} programs broken on purpose; found: {', '.join(found)}; NOT found: {', '.join(missed) or 'none'}")
    sys.exit(1 if missed else 0)


main()
