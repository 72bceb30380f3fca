#!/usr/bin/env python3
"""Runs the tests of odm_store: run.py [--build FOLDER] [--kills N] [--files N] [NAME ..]

Without names all tests run. Each prints a line with what it tried; one that fails says so, and the exit status is 1.
"""
import argparse
import subprocess
import sys
import time

import answers
import calls
import chain
import kills
import tools
import troubles
import writers


def built(name, *words):
    """A test that is a program of its own, built beside odm_store."""

    def test(program):
        run = subprocess.run([program.build / name, *map(str, words)], stdout=subprocess.PIPE, stderr=subprocess.STDOUT)
        out = run.stdout.decode(errors="replace").strip()
        tools.check(run.returncode == 0, f"status {run.returncode}\n{out}")
        return out

    return test


def tests(arguments):
    return {
        "form": built("form_test"),
        "place": built("place_test", arguments.files),
        "chain": chain.chain,
        "answers": answers.answers,
        "troubles": troubles.troubles,
        "damages": troubles.damages,
        "calls": calls.calls,
        "writers": writers.writers,
        "interrupts": lambda program: kills.interrupts(program, max(arguments.kills // 5, 1)),
        "kills": lambda program: kills.kills(program, arguments.kills),
    }


def main():
    parser = argparse.ArgumentParser()
    parser.add_argument("--build", default=tools.HOST / "build")
    parser.add_argument("--kills", type=int, default=1000)
    parser.add_argument("--files", type=int, default=1000)
    parser.add_argument("names", nargs="*")
    arguments = parser.parse_args()
    program, failed = tools.Program(arguments.build), False
    table = tests(arguments)
    for name in arguments.names or table:
        start = time.monotonic()
        try:
            print(f"{name}: {table[name](program)} ({time.monotonic() - start:.0f} s)", flush=True)
        except tools.Wrong as wrong:
            print(f"{name}: FAILED: {wrong}", flush=True)
            failed = True
    sys.exit(1 if failed else 0)


main()
