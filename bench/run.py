#!/usr/bin/env python3
"""Times the built program on small modules of growing length, and esbuild on the same texts where it is installed.

Usage: bench/run.py [--most GROUPS] [--times N]
Each module has groups of an import, an exported constant and a function that uses both. The sizes are run in turn, N
times; times are the least of a size's runs, memory the greatest resident set; growth is the time over that of half as
many groups. The processor's time leaves out what other work on the machine, or beside a virtual one, takes away.
"""
import argparse
import json
import os
import pathlib
import resource
import shutil
import subprocess
import sys
import tempfile
import time

ROOT = pathlib.Path(__file__).resolve().parent.parent
PROGRAM = ROOT / "crates" / "prepare" / "out" / "prepare"


def module_of(groups):
    """A small module of so many groups."""
    parts = []
    for i in range(groups):
        parts.append(f"import {{ a{i} }} from 'm{i}';\n")
        parts.append(f"export const b{i} = a{i}({i});\n")
        parts.append(f"function c{i}(d) {{ return a{i}(d, b{i}); }}\n")
    return "".join(parts)


def run_once(command, source):
    """Wall seconds, processor seconds and peak bytes of one run, and its status."""
    with open(source, "rb") as given, open(os.devnull, "wb") as sink:
        start = time.perf_counter()
        child = subprocess.Popen(command, stdin=given, stdout=sink, stderr=sink,
                                 env={**os.environ, "GOMAXPROCS": "1"})
        _, status, usage = os.wait4(child.pid, 0)
        seconds = time.perf_counter() - start
    child.returncode = os.waitstatus_to_exitcode(status)
    return seconds, usage.ru_utime + usage.ru_stime, usage.ru_maxrss * 1024, child.returncode


class Series:
    """A command on one input: the least times and the greatest memory of its runs."""

    def __init__(self, command, source):
        self.command, self.source = command, source
        self.seconds, self.processor, self.peak = float("inf"), float("inf"), 0

    def run(self):
        seconds, processor, peak, status = run_once(self.command, self.source)
        if status != 0:
            sys.exit(f"{self.command[0]} ended with {status}")
        self.seconds, self.processor = min(self.seconds, seconds), min(self.processor, processor)
        self.peak = max(self.peak, peak)


def series_of(folder, groups, esbuild):
    """The module of so many groups, its length, and the commands that are run on it."""
    text = module_of(groups)
    request = os.path.join(folder, f"{groups}.json")
    source = os.path.join(folder, f"{groups}.js")
    pathlib.Path(request).write_text(json.dumps({"module": text}))
    pathlib.Path(source).write_text(text)
    ours = Series([str(PROGRAM), "prepare"], request)
    theirs = Series([esbuild, "--format=cjs", "--loader=js"], source) if esbuild else None
    return groups, len(text), ours, theirs


def growth(now, before):
    return f"{now / before:.2f}" if before else "-"


def print_table(rows):
    print("| groups | bytes | seconds | growth | processor s | growth | MiB | esbuild s | esbuild processor s | esbuild MiB |")
    print("|---|---|---|---|---|---|---|---|---|---|")
    wall, processor = None, None
    for groups, length, ours, theirs in rows:
        columns = [str(groups), str(length), f"{ours.seconds:.4f}", growth(ours.seconds, wall),
                   f"{ours.processor:.4f}", growth(ours.processor, processor), f"{ours.peak / 2**20:.1f}"]
        if theirs:
            columns += [f"{theirs.seconds:.4f}", f"{theirs.processor:.4f}", f"{theirs.peak / 2**20:.1f}"]
        else:
            columns += ["-", "-", "-"]
        print("| " + " | ".join(columns) + " |")
        wall, processor = ours.seconds, ours.processor


def main():
    options = argparse.ArgumentParser(description=__doc__)
    options.add_argument("--most", type=int, default=16000)
    options.add_argument("--times", type=int, default=5)
    options = options.parse_args()
    if not PROGRAM.exists():
        sys.exit("build the program first: ./prepare")
    esbuild = shutil.which("esbuild")
    resource.setrlimit(resource.RLIMIT_CORE, (0, 0))
    with tempfile.TemporaryDirectory() as folder:
        rows, groups = [], 500
        while groups <= options.most:
            rows.append(series_of(folder, groups, esbuild))
            groups *= 2
        # One run of each size after the other, so that a slow moment of the machine meets them all.
        for _ in range(options.times):
            for _, _, ours, theirs in rows:
                for one in filter(None, (ours, theirs)):
                    one.run()
        print_table(rows)


if __name__ == "__main__":
    main()
