#!/usr/bin/python3
"""Fills each *.csv of a folder by a saved rule, one task a file, on a cluster of Dask.

    fill_folder.py IN OUT --rule RULE [--scheduler ADDRESS] [--workers N] [--program FILLCSV]

Without --scheduler it starts a cluster of its own on this machine. With one, the program, the rule and both folders have
the same paths on every worker. A filled file is in OUT whole or not at all. Files that the program refuses are listed in
OUT/refused.csv with its own line, and left alone until they change or their line is taken out. Run again, it does only
what is missing. The status is 0 where nothing was refused and nothing failed, else 1; 2 where it could not begin.

This script and the cluster are only tested. What becomes of each file is the program's work.
"""
import argparse
import csv
import os
import pathlib
import re
import subprocess
import sys
import time

from distributed import Client, as_completed

TRIES = 3  # how often a task that ends in an error is tried again; one whose worker dies is begun again by Dask itself
REFUSED = "refused.csv"
PROGRAM = pathlib.Path(__file__).resolve().parent.parent / "crates/fillcsv/out/fillcsv"


def fill(source, target, program, rule):
    """Runs on a worker: fills one file beside its place and moves it there. The program's status, its last line, rows and cells."""
    part = f"{target}.part-{os.getpid()}-{time.monotonic_ns()}"
    try:
        with open(source, "rb") as sheet, open(part, "wb") as filled:
            run = subprocess.run([program, "--rule", rule], stdin=sheet, stdout=filled, stderr=subprocess.PIPE)
            os.fsync(filled.fileno())
        line = run.stderr.decode("utf-8", "replace").rstrip("\n").rpartition("\n")[2]
        if run.returncode != 0:
            return run.returncode, line or f"ended by {run.returncode}", 0, 0
        rows, cells = re.search(r"(\d+) rows, (\d+) filled", line).groups()
        os.replace(part, target)
        return 0, line, int(rows), int(cells)
    finally:
        if os.path.exists(part):
            os.remove(part)


def read_refused(path):
    """The lines of the files that earlier runs refused, by name, and when they were written."""
    if not path.exists():
        return {}, 0
    with open(path, newline="", encoding="utf-8") as file:
        return dict(list(csv.reader(file))[1:]), path.stat().st_mtime_ns


def write_refused(path, refused):
    if not refused:
        path.unlink(missing_ok=True)
        return
    part = path.with_name(f"{REFUSED}.part-{os.getpid()}")
    with open(part, "w", newline="", encoding="utf-8") as file:
        csv.writer(file, lineterminator="\n").writerows([("file", "line"), *sorted(refused.items())])
    os.replace(part, path)


def left_to_do(folder, out):
    """The files that have no output yet, and those that are refused and have not changed since."""
    refused, since = read_refused(out / REFUSED)
    names = sorted(path.name for path in folder.glob("*.csv"))
    kept = {it: refused[it] for it in names if it in refused and (folder / it).stat().st_mtime_ns <= since}
    return [it for it in names if it not in kept and not (out / it).exists()], kept


def problem_of(words):
    """Why nothing can begin, if something is wrong for all files."""
    if not os.access(words.program, os.X_OK):
        return f"{words.program}: no program; ./fillcsv --help proves and builds it"
    if words.folder == words.out or (words.folder / REFUSED).exists():
        return f"{words.folder}: its files would be written over"
    run = subprocess.run([words.program, "--rule", words.rule], stdin=subprocess.DEVNULL, capture_output=True, text=True)
    # an empty sheet may be refused; a line that names the rule's file speaks of the rule
    return run.stderr.rstrip("\n") if run.stderr.startswith(f"fillcsv: {words.rule}: ") else None


def results(client, words, names):
    """Hands the files to the cluster, and gives each name with what came of it as soon as it is known."""
    files = [[str(where / it) for it in names] for where in (words.folder, words.out)]
    keys = [f"fill {it}" for it in names]
    tasks = client.map(fill, *files, program=words.program, rule=words.rule, key=keys, retries=TRIES, pure=False)
    by_key = dict(zip(keys, names))
    coming = as_completed(tasks, with_results=True, raise_errors=False)
    del tasks  # a result that is here need not be kept, or made again where its worker dies
    for done, (task, result) in enumerate(coming, 1):
        print(f"\r[{'#' * (40 * done // len(names)):40}] {done} of {len(names)} files ", end="", file=sys.stderr, flush=True)
        if isinstance(result, tuple) and len(result) == 4:  # what `fill` gives, also where its worker has died since
            yield by_key[task.key], result
        else:
            yield by_key[task.key], (None, f"not done: {result!r}", 0, 0)


def main():
    parser = argparse.ArgumentParser(description=__doc__.split("\n")[0])
    parser.add_argument("folder", metavar="IN", type=lambda it: pathlib.Path(it).resolve())
    parser.add_argument("out", metavar="OUT", type=lambda it: pathlib.Path(it).resolve())
    parser.add_argument("--rule", required=True, type=os.path.realpath)
    parser.add_argument("--scheduler", metavar="ADDRESS", help="a cluster that runs already, as tcp://HOST:8786")
    parser.add_argument("--workers", type=int, default=os.cpu_count(), help="processes of a cluster of its own")
    parser.add_argument("--program", metavar="FILLCSV", default=PROGRAM, type=os.path.realpath)
    words = parser.parse_args()
    problem = problem_of(words)
    if problem:
        print(problem, file=sys.stderr)
        return 2
    words.out.mkdir(parents=True, exist_ok=True)
    names, refused = left_to_do(words.folder, words.out)
    files, all_rows, all_cells, failed, began = 0, 0, 0, {}, time.monotonic()
    if names:
        own = {"n_workers": words.workers, "threads_per_worker": 1, "dashboard_address": None}
        with Client(words.scheduler) if words.scheduler else Client(**own) as client:
            for name, (status, line, rows, cells) in results(client, words, names):
                if status == 0:
                    files, all_rows, all_cells = files + 1, all_rows + rows, all_cells + cells
                elif status == 5:
                    refused[name] = line
                else:
                    failed[name] = line
        print(file=sys.stderr)
    for part in words.out.glob("*.part-*"):  # of workers that died
        part.unlink(missing_ok=True)
    write_refused(words.out / REFUSED, refused)
    for name, line in sorted(failed.items()):
        print(f"{name}: {line}", file=sys.stderr)
    print("files,rows,cells filled,refused,failed,seconds")
    print(f"{files},{all_rows},{all_cells},{len(refused)},{len(failed)},{time.monotonic() - began:.1f}")
    return 1 if refused or failed else 0


if __name__ == "__main__":
    sys.exit(main())
