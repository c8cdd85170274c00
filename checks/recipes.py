#!/usr/bin/env python3
"""recipes.py FILE [--write]: runs the blocks of docs/RECIPES.md in the current folder.

`dta` and the tools are on the path, and examples/ is in the folder. Blocks of `sh` are run by the
shell, those of `python` one after another as in a notebook; what the latter print is compared with
the block of `text` behind them, or written there with --write. Where a block imports what isn't
there, it and the rest of its section are left out, and this is said. Status 1 where a text is
another one.
"""
import contextlib
import io
import re
import subprocess
import sys

PART = re.compile(r"^(?:## [^\n]*|```(sh|python|text)\n(.*?)^```)$", re.M | re.S)


def run_shell(code):
    run = subprocess.run(["sh", "-e", "-c", code], capture_output=True, text=True, check=False)
    if run.returncode:
        sys.exit(f"status {run.returncode} of\n{code}{run.stdout}{run.stderr}")


def printed_by(code, names):
    """What a block of Python prints, or nothing where a module of it isn't there."""
    with contextlib.redirect_stdout(io.StringIO()) as text:
        try:
            exec(compile(code, "docs/RECIPES.md", "exec"), names)
        except ModuleNotFoundError as error:
            print(f"not tried: there is no {error.name}", file=sys.stderr)
            return None
    return text.getvalue()


def compared(page):
    """The page with what its blocks print, how many texts were compared, how many are wrong."""
    written, at, names, printed, left_out, texts, wrong = "", 0, {}, "", False, 0, 0
    for part in PART.finditer(page):
        kind, body = part.groups()
        if kind is None:
            left_out = False
        elif left_out:
            continue
        elif kind == "sh":
            run_shell(body)
        elif kind == "python":
            printed = printed_by(body, names)
            left_out = printed is None
        else:
            texts += 1
            if printed != body:
                print(f"wanted:\n{body}got:\n{printed}")
                wrong += 1
            written += page[at:part.start(2)] + printed
            at = part.end(2)
    return written + page[at:], texts, wrong


def main():
    path = sys.argv[1]
    with open(path, encoding="utf-8") as file:
        page = file.read()
    if "import pandas" in page and printed_by("import pandas", {}) is None:
        return
    written, texts, wrong = compared(page)
    if "--write" in sys.argv:
        with open(path, "w", encoding="utf-8") as file:
            file.write(written)
    elif wrong or not texts:
        sys.exit(1)
    print(f"{texts} texts compared")


if __name__ == "__main__":
    main()
