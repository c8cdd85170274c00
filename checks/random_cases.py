#!/usr/bin/env python3
"""random_cases.py PROGRAM [--cases N] [--seed S] [--jobs J] [--case K] [--all] [--only KIND]

Runs PROGRAM and PEER in folders with equal tables, N times (1000 where N isn't said), and compares
the status, standard output and standard error, and every file that is then there. PEER, in the
environment, is the path of another program of the same rules, which takes the same words, writes
the same files and ends with the same status; without it nothing can be compared.

Case K of seed S is the same wherever it is made with the same words: `--case K` runs it alone. With
`--only KIND` all cases are of this kind: a command, such as skim, counts, sweep or audit;
`windows`, capacities by step in link and movement tables; `newell`, the queue with and without a
wave; `start`, assignments from a start table; `trips`, each command that takes `--costs trips` with
these words. Otherwise each kind has its share. The link times
that a skim reads are those of an `assign` of PEER, and a start table is its agent table; both as
they are or changed. An audit reads the agent table and the link times of one `assign` of PEER,
mostly with one field or one row changed. At the first difference its folder is kept and named, and
the status is 1; with --all each one is told.

Where workers load, which watch lines come before the last one of an iteration is free within its
rule, so those are held to the rule and to the agent table (watch_rule.py).
"""
import argparse
import collections
import multiprocessing
import os
import random
import shutil
import subprocess
import sys
import tempfile

sys.dont_write_bytecode = True
import case_maker  # noqa: E402
import watch_rule  # noqa: E402

LONGEST = 120  # seconds that a run may take


class Outcome:
    """What a run left: its status, its texts, and every entry of its folder."""

    def __init__(self, status, report, watch, files):
        self.status = status
        self.report = report
        self.watch = watch
        self.files = files


def lay_out(case, folder):
    """Writes the tables of a case into a new folder."""
    os.makedirs(folder)
    for name, text in case.files.items():
        with open(os.path.join(folder, name), "wb") as out:
            out.write(text)
    for name in case.folders:
        os.mkdir(os.path.join(folder, name))
    for name in case.links_to_themselves:
        os.symlink(name, os.path.join(folder, name))


def entry(path):
    """The bytes of a file, or what stands in place of one."""
    if os.path.islink(path):
        return "link to " + os.readlink(path)
    if os.path.isdir(path):
        return "folder of " + repr(sorted(os.listdir(path)))
    with open(path, "rb") as file:
        return file.read()


def run(program, case, folder):
    """Runs a program with the words of a case in a folder of its own."""
    lay_out(case, folder)
    try:
        ended = subprocess.run([os.fsencode(program)] + case.words, cwd=folder,
                               stdin=subprocess.DEVNULL, capture_output=True, timeout=LONGEST)
    except subprocess.TimeoutExpired:
        return Outcome("no end", b"", b"", {})
    files = {name: entry(os.path.join(folder, name)) for name in sorted(os.listdir(folder))}
    return Outcome(ended.returncode, ended.stdout, ended.stderr, files)


def earlier_run(settings, folder):
    """A function that answers the files that an assignment of PEER leaves in such a folder, or None
    where it doesn't end with 0."""
    def assign(words, files):
        case = case_maker.Case([word.encode("ascii") for word in words], files)
        outcome = run(settings.peer, case, folder)
        shutil.rmtree(folder)
        return outcome.files if outcome.status == 0 else None
    return assign


def value_of(words, name):
    """The value of an option in words of the grammar, as bytes, or None."""
    for place, word in enumerate(words):
        if word == b"--" + name:
            return words[place + 1]
        if word.startswith(b"--" + name + b"="):
            return word.split(b"=", 1)[1]
    return None


def watch_faults(case, got, wanted):
    """What is wrong with the text of Watch."""
    if got.watch == wanted.watch:
        return []
    if wanted.status not in (0, 5) or not wanted.watch or b"--plain" in case.words:
        return ["standard error differs"]
    every = int(value_of(case.words, b"watch") or 0)
    if every == 0:
        return ["standard error has text without --watch"]
    files = got.files if case.words[0] == b"assign" and wanted.status == 0 else {}
    return watch_rule.faults(got.watch, wanted.watch, every, files)


def differences(case, got, wanted):
    """In which words two outcomes of a case differ."""
    found = []
    if got.status != wanted.status:
        found.append(f"the status is {got.status} and {wanted.status}")
    if got.report != wanted.report:
        found.append("standard output differs")
    found += watch_faults(case, got, wanted)
    for name in sorted(set(got.files) | set(wanted.files)):
        if got.files.get(name) != wanted.files.get(name):
            found.append(f"{name} differs")
    return found


def keep(folder, case, outcomes):
    """Writes beside the folders of both runs the words and the texts of each."""
    with open(os.path.join(folder, "words"), "w", encoding="ascii") as out:
        out.write(" ".join(repr(word) for word in case.words) + "\n")
    for name, outcome in outcomes.items():
        with open(os.path.join(folder, name + ".status"), "w", encoding="ascii") as out:
            out.write(f"{outcome.status}\n")
        for kind, text in (("report", outcome.report), ("watch", outcome.watch)):
            with open(os.path.join(folder, f"{name}.{kind}"), "wb") as out:
                out.write(text)


def try_case(job):
    """Runs one case; its number, the status, the kind, and where it differs also how and the
    folder."""
    settings, number = job
    folder = tempfile.mkdtemp(prefix=f"case_{settings.seed}_{number}_", dir=settings.folder)
    case = case_maker.make_case(random.Random(f"{settings.seed}:{number}"),
                                earlier_run(settings, os.path.join(folder, "earlier")),
                                settings.only)
    got = run(settings.program, case, os.path.join(folder, "program"))
    wanted = run(settings.peer, case, os.path.join(folder, "peer"))
    found = differences(case, got, wanted)
    if found or settings.case is not None:
        keep(folder, case, {"program": got, "peer": wanted})
    else:
        shutil.rmtree(folder)
        folder = None
    return number, wanted.status, case.kind, found, folder


def read_settings():
    reader = argparse.ArgumentParser(usage=__doc__)
    reader.add_argument("program", type=os.path.abspath)
    reader.add_argument("--cases", type=int, default=1000)
    reader.add_argument("--seed", type=int, default=1)
    reader.add_argument("--jobs", type=int, default=2)
    reader.add_argument("--case", type=int)
    reader.add_argument("--all", action="store_true")
    reader.add_argument("--only", choices=list(case_maker.SHARES))
    settings = reader.parse_args()
    settings.peer = os.path.abspath(os.environ.get("PEER", ""))
    for name, path in (("PROGRAM", settings.program), ("PEER in the environment", settings.peer)):
        if not os.path.isfile(path) or not os.access(path, os.X_OK):
            reader.error(f"{name} has to be the path of a program")
    return settings


def try_cases(settings):
    """Runs the cases, tells of the first that differs or of all; how many did, and how many cases
    there were of each kind and status."""
    numbers = range(settings.cases) if settings.case is None else [settings.case]
    kinds = collections.Counter()
    differing = 0
    with multiprocessing.Pool(settings.jobs) as pool:
        jobs = ((settings, number) for number in numbers)
        for number, status, kind, found, folder in pool.imap(try_case, jobs, chunksize=4):
            kinds[(kind, str(status))] += 1
            if found:
                differing += 1
                print(f"case {number} of seed {settings.seed}: {'; '.join(found)}: {folder}",
                      flush=True)
                if not settings.all:
                    pool.terminate()
                    break
            elif folder is not None:
                print(f"case {number} of seed {settings.seed}: no difference: {folder}")
    return differing, kinds


def main():
    settings = read_settings()
    settings.folder = tempfile.mkdtemp(prefix="random_cases_")
    differing, kinds = try_cases(settings)
    for (kind, status), count in sorted(kinds.items()):
        print(f"{kind}, status {status}: {count}")
    print(f"seed {settings.seed}: {sum(kinds.values())} cases, {differing} with a difference")
    if not differing and settings.case is None:
        shutil.rmtree(settings.folder)
    sys.exit(1 if differing else 0)


if __name__ == "__main__":
    main()
