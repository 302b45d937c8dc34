"""What the tests of the library in each language share: they run a caller, send it requests, and count the results that are right."""

import subprocess

from programs import TOP

C_SOURCES = TOP / "tests" / "c"
SECONDS = 600


class Failed(Exception):
    """A tool did not do what it was asked for; the text is what it printed."""


def run(words, given="", **how):
    ended = subprocess.run([str(word) for word in words], input=given, capture_output=True, text=True, timeout=SECONDS, **how)
    if ended.returncode != 0:
        raise Failed(f"`{' '.join(map(str, words))[:200]}` ended with {ended.returncode}: {(ended.stdout + ended.stderr)[-2000:]}")
    return ended.stdout


def compare(tally, caller, asked, words, **how):
    """Sends requests to a caller, and counts each result. Returns the lines that it prints after them."""
    lines = run(words, "".join(f"{request}\n" for _, request, _ in asked), **how).splitlines()
    for index, (name, _, wanted) in enumerate(asked):
        came = lines[index] if index < len(lines) else "nothing"
        differs = came.rstrip() != wanted.rstrip()
        tally.count(f"{caller}/{name}", f"wanted {wanted[:120]}, came {came[:120]}" if differs else "")
    return lines[len(asked) :]


def add_counts(tally, name, printed):
    """Adds what a program of checks counted, whose last line is `N passed, M failed`."""
    last = printed.splitlines()[-1] if printed else "nothing"
    passed, _, failed = last.partition(" passed, ")
    if not passed.isdigit() or failed != "0 failed":
        return tally.count(name, f"it ended in {last!r}: {printed[-1000:]}")
    tally.add(int(passed))
