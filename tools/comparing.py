"""A program against another one that was written apart from it: the same input has to give the same bytes and status."""
import concurrent.futures
import itertools
import os
import subprocess
import sys

TOP = os.path.dirname(os.path.dirname(os.path.abspath(__file__)))
SHARED = os.environ.get("SHARED_TOOLS", os.path.join(TOP, "../shared/tools"))
BASELINE = os.environ.get("BASELINE", os.path.join(SHARED, "baseline"))
PROGRAM = os.path.join(TOP, "crates/xmpp/out/xmpp")
SECONDS = 120
SHOWN = 10


def answer(program, words, text):
    """The lines that a program writes, asked by words with spaces between them, and its status as the last one."""
    try:
        done = subprocess.run([program, *words.split(" ")], input=text, capture_output=True, timeout=SECONDS)
    except subprocess.TimeoutExpired:
        return [b"", b"no answer in time"]
    return done.stdout.split(b"\n") + [b"status %d" % done.returncode]


def first_difference(ours, theirs):
    """The first line that differs, or nothing."""
    pairs = enumerate(itertools.zip_longest(ours, theirs), 1)
    return next((f"line {line} is {our!r:.150}, of the other {their!r:.150}" for line, (our, their) in pairs if our != their), None)


def programs(what, words):
    """The program that the words name, or the built one. Ends where it or the other one is missing."""
    program = words[0] if words else PROGRAM
    if not os.access(program, os.X_OK):
        print(f"{what}: there is no program at {program}")
        sys.exit(2)
    if not os.access(BASELINE, os.X_OK):
        print(f"skipped: {what}, since there is no {BASELINE}")
        sys.exit(0)
    return program


def difference(program, words, text):
    """The first line that differs between a program and the baseline, or nothing."""
    return first_difference(answer(program, words, text), answer(BASELINE, words, text))


def tell(what, numbers, differs):
    """Prints how many of these numbers agree, and where the first that don't differ. The status of the script."""
    with concurrent.futures.ThreadPoolExecutor(os.cpu_count()) as pool:
        told = list(zip(numbers, pool.map(differs, numbers)))
    differ = [(number, why) for number, why in told if why]
    print(f"{len(told) - len(differ)} of {len(told)} {what} agree")
    print("".join(f"{number}: {why}\n" for number, why in differ[:SHOWN]), end="")
    if len(differ) > SHOWN:
        print("and " + " ".join(str(number) for number, _ in differ[SHOWN:]))
    return 1 if differ else 0
