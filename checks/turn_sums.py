#!/usr/bin/env python3
"""turn_sums.py PROGRAM [FOLDER [WORDS..]]

Checks the sums of turning counts over examples: in each bucket of steps the turns into a link add
up to the vehicles that entered it less those that began there. PROGRAM runs `assign` and `counts`
with the same words in a copy of each folder; without FOLDER these are turns, sioux_falls, signal
and backward_wave of examples/. Prints the links and buckets looked at; the status is 1 where a sum
differs.
"""
import csv
import os
import shutil
import subprocess
import sys
import tempfile

EXAMPLES = os.path.join(os.path.dirname(os.path.abspath(__file__)), "..", "examples")
TABLES = ["node.csv", "link.csv", "movement.csv", "demand.csv"]
CASES = [("turns", "--period 20 --horizon 60 --bucket 20".split()),
         ("sioux_falls", "--iterations 2".split()),
         ("signal", "--period 60 --horizon 120 --bucket 5".split()),
         ("backward_wave", "--period 96 --horizon 138 --bucket 6 --queue newell".split())]


def rows(folder, name):
    with open(os.path.join(folder, name), newline="") as table:
        return list(csv.DictReader(table))


def add(sums, link, step, number):
    sums[link, step] = sums.get((link, step), 0) + number


def beginnings(folder, bucket):
    """How many vehicles began on each link, by the first step of a bucket."""
    sums = {}
    for agent in rows(folder, "agent.csv"):
        if agent["entry_steps"]:
            link, step = agent["link_ids"].split(";")[0], int(agent["entry_steps"].split(";")[0])
            add(sums, link, step // bucket * bucket, 1)
    return sums


def turns(folder):
    """How many turns led into each link, by the first step of a bucket."""
    sums = {}
    for count in rows(folder, "counts.csv"):
        if count["kind"] == "turn":
            add(sums, count["second"], int(count["from_step"]), int(count["vehicles"]))
    return sums


def differences(program, example, words):
    """How many links and buckets there are, and those whose sums differ."""
    with tempfile.TemporaryDirectory() as folder:
        for name in TABLES:
            if os.path.exists(os.path.join(example, name)):
                shutil.copy(os.path.join(example, name), folder)
        for command in ["assign", "counts"]:
            subprocess.run([os.path.abspath(program), command, *words], cwd=folder, check=True,
                           stdout=subprocess.DEVNULL)
        bucket = int(words[words.index("--bucket") + 1]) if "--bucket" in words else 50
        began, turned = beginnings(folder, bucket), turns(folder)
        links = rows(folder, "link_performance.csv")
        wrong = []
        for link in links:
            place = link["link_id"], int(link["from_step"])
            if turned.get(place, 0) != int(link["entered"]) - began.get(place, 0):
                wrong.append(place)
        return len(links), wrong


def main():
    if len(sys.argv) < 2:
        sys.exit(__doc__)
    cases = [(os.path.join(EXAMPLES, name), words) for name, words in CASES]
    if len(sys.argv) > 2:
        cases = [(sys.argv[2], sys.argv[3:])]
    failed = False
    for example, words in cases:
        many, wrong = differences(sys.argv[1], example, words)
        print(f"{os.path.basename(os.path.normpath(example))}: {many} links and buckets, "
              f"{len(wrong)} with another sum")
        for link, step in wrong[:10]:
            print(f"  link {link} from step {step}")
        failed = failed or bool(wrong)
    sys.exit(1 if failed else 0)


if __name__ == "__main__":
    main()
