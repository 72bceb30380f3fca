"""The chain of README.md and the typed items of host/README.md, typed as they stand there."""
import os
import re
import shutil
import subprocess

from tools import CHAIN, HOST, check, folder


def blocks(text, section):
    """Of a section: each line that is typed, with what is printed below it."""
    section = text.split(f"## {section}\n", 1)[1].split("\n## ", 1)[0]
    found = []
    for line in section.splitlines():
        if line.startswith("    $ "):
            found.append((line[6:], []))
        elif line.startswith("    ") and found:
            found[-1][1].append(line[4:])
    return found


def typed(program, readme, section):
    """What is built and where it is found differs here; all that follows is typed as it stands."""
    lines = [block for block in blocks(readme.read_text(), section) if not re.match(r"tools/archive|make |cd |PATH=", block[0])]
    with folder() as path:
        shutil.copytree(CHAIN, path / "chain", ignore=lambda where, names: [name for name in names if not name.startswith("visit-")])
        (path / "bin").mkdir()
        (path / "bin/odm_store").symlink_to(program.path)
        environment = dict(os.environ, PATH=f"{path}/bin:{os.environ['PATH']}")
        for line, printed in lines:
            run = subprocess.run(["sh", "-c", line], cwd=path / "chain", env=environment, stdout=subprocess.PIPE, stderr=subprocess.STDOUT)
            out = run.stdout.decode().splitlines()
            check(out == printed, f"$ {line}\nprinted\n  " + "\n  ".join(out) + f"\n{readme} has\n  " + "\n  ".join(printed))
    return len(lines)


def chain(program):
    counts = [typed(program, HOST.parent / "README.md", "A chain"), typed(program, HOST / "README.md", "Typed items")]
    check(counts[0] > 10 and counts[1] > 4, "the lines to be typed are not found")
    return f"{counts[0]} lines of README.md and {counts[1]} of host/README.md typed, all printed as they say"
