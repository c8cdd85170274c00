#!/usr/bin/env python3
"""sweep_alone.py PROGRAM [--cases N] [--seed S]

Checks that each scenario of a sweep has the texts that `assign` writes over the scaled demand
alone. Makes N small networks (200 where N isn't said) with the words of a sweep by a seed, as
random_cases.py does. PROGRAM runs `sweep` over each, and `assign` with the same words over
the demand times each scale. The texts of a scenario must be those of Agent, LinkTime, with
`--costs trips` OriginWait, Gap and Report. Prints how many cases and scenarios there were; the
status is 1 where some text differs.
"""
import argparse
import os
import random
import subprocess
import sys
import tempfile
from fractions import Fraction

sys.dont_write_bytecode = True
import case_maker  # noqa: E402
import case_sweeps  # noqa: E402

MOST = 10 ** 12  # thousandths of a volume
ALONE = ["agent.csv", "link_performance.csv", "origin_wait.csv", "gap.csv"]


def thousandths(text):
    """The thousandths of a quantity, rounded down."""
    return int(Fraction(text) * 1000)


def scaled(demand, scale):
    """A demand table whose volumes are multiplied by a scale in thousandths."""
    place = demand.place("volume")
    rows = []
    for row in demand.rows:
        volume = min(MOST, thousandths(row[place]) * scale // 1000)
        rows.append(row[:place] + [f"{volume // 1000}.{volume % 1000:03}"] + row[place + 1:])
    return case_maker.Table(demand.columns, rows)


def lay_out(folder, tables):
    os.makedirs(folder)
    for name, table in tables.items():
        with open(os.path.join(folder, name), "wb") as out:
            out.write(case_maker.write_table(None, table, False))


def run(program, words, folder, tables):
    """Runs the program in a new folder; its status and what it prints."""
    lay_out(folder, tables)
    ended = subprocess.run([program, *words], cwd=folder, stdin=subprocess.DEVNULL,
                           stdout=subprocess.PIPE)
    return ended.returncode, ended.stdout


def read(folder, name):
    with open(os.path.join(folder, name), "rb") as text:
        return text.read()


def is_by_trips(words):
    return "--costs=trips" in words or ("--costs", "trips") in zip(words, words[1:])


def make_case(r):
    """Words without scales, scales as they are spelled, and tables that are accepted."""
    features = [one for one in ("windows", "newell", "trips") if r.random() < .3]
    groups = case_maker.make_options(r, "sweep", features)
    groups = [group for group in groups if not group[0].startswith("--scales")]
    words = [word for group in groups for word in group]
    tables = case_maker.make_tables(r, ["sweep"] + words, features)
    return words, case_sweeps.some_scales(r), tables


def differences(program, words, scales, tables, folder):
    """How many scenarios a case has, and what is wrong with it; no scenario where it is refused."""
    swept = os.path.join(folder, "sweep")
    status, report = run(program, ["sweep", *words, "--scales", scales], swept, tables)
    if status != 0:
        return 0, [] if status == 3 else [f"sweep ends with {status}"]
    wanted = b""
    parts = [thousandths(one) for one in scales.split(";")]
    for place, scale in enumerate(parts):
        alone = os.path.join(folder, f"alone_{place}")
        demand = scaled(tables["demand.csv"], scale)
        status, told = run(program, ["assign", *words], alone, {**tables, "demand.csv": demand})
        if status != 0:
            return len(parts), [f"assign of scenario {place} ends with {status}"]
        wanted += f"scenario {place} scale {scale}\n".encode("ascii")
        wanted += b"".join(read(alone, name) for name in ALONE
                           if name != "origin_wait.csv" or is_by_trips(words)) + told
    faults = []
    if report != f"scenarios {len(parts)}\n".encode("ascii"):
        faults.append("its report differs")
    if read(swept, "sweep.txt") != wanted:
        faults.append("sweep.txt differs from the texts of assign alone")
    return len(parts), faults


def main():
    reader = argparse.ArgumentParser(usage=__doc__)
    reader.add_argument("program", type=os.path.abspath)
    reader.add_argument("--cases", type=int, default=200)
    reader.add_argument("--seed", type=int, default=1)
    settings = reader.parse_args()
    cases = scenarios = differing = number = 0
    while cases < settings.cases:
        words, scales, tables = make_case(random.Random(f"{settings.seed}:{number}"))
        with tempfile.TemporaryDirectory() as folder:
            count, faults = differences(settings.program, words, scales, tables, folder)
        if faults:
            print(f"case {number}: {'; '.join(faults)}: sweep {' '.join(words)} --scales {scales}")
            differing += 1
        cases += 1 if count or faults else 0
        scenarios += count
        number += 1
    print(f"seed {settings.seed}: {cases} cases, {scenarios} scenarios, {differing} cases with a "
          "difference")
    sys.exit(1 if differing else 0)


if __name__ == "__main__":
    main()
