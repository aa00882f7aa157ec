"""What the scripts of worked examples share: which programs are run, what pages show, and how runs are counted."""

import os
import re
from pathlib import Path

TOP = Path(__file__).resolve().parents[1]


def built_programs(crate):
    """The programs that `rt ci` leaves of a crate."""
    out = TOP / "crates" / crate / "out"
    # (the second is there only where Rattle's own compiler compiles it)
    return [out / crate, *out.glob(f"{crate}.by-rattle")]


def blocks(page, language):
    """The blocks of code that a page has in a language."""
    return re.findall(rf"^```{language}\n(.*?)^```$", (TOP / page).read_text(), re.M | re.S)


def commands(page):
    """The commands that a page shows, each with what is written then."""
    for block in blocks(page, "console"):
        for shown in re.split(r"^\$ ", block, flags=re.M)[1:]:
            lines = shown.splitlines(keepends=True)
            more = next((place for place, line in enumerate(lines[1:], 1) if not line.startswith("> ")), len(lines))
            yield "".join([lines[0], *(line[2:] for line in lines[1:more])]), "".join(lines[more:])


def table(page, heading):
    """The rows of the first table below a heading of a page, without the `of code in a cell of its own."""
    text = (TOP / page).read_text().split(f"\n## {heading}\n")[1]
    for row in re.search(r"^\|(?:.*\|\n)+", text, re.M)[0].splitlines()[2:]:
        cells = [cell.strip().replace("\\|", "|") for cell in re.split(r"(?<!\\)\|", row)[1:-1]]
        yield [re.sub(r"^`([^`]*)`$", r"\1", cell) for cell in cells]


def count(named):
    """Takes names, each with whether its runs were as wanted, and tells each that wasn't, and the counts. The status: 0 if all were, and there
    was one."""
    passed = failed = 0
    for name, runs in named:
        for number, is_well in enumerate(runs, 1):
            passed, failed = passed + bool(is_well), failed + (not is_well)
            if not is_well:
                print(f"{name}, run {number}: FAILED")
    print(f"{passed} passed, {failed} failed")
    return 1 if failed or not passed else 0


def try_all(programs, examples):
    """Tries the examples, functions that tell of one run after the other whether it was as wanted, with each program."""
    return count((f"{program}: {runs.__name__}", runs(os.path.abspath(program))) for program in programs for runs in examples)
