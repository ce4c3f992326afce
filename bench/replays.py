"""Runs of `replay`, or of another word, on inputs of growing size: processor time and peak memory, how they grow, and against
another program's."""
import os
import sys
import tempfile

TOP = os.path.dirname(os.path.dirname(os.path.abspath(__file__)))
SHARED = os.environ.get("SHARED_TOOLS", os.path.join(TOP, "../shared/tools"))
BASELINE = os.environ.get("BASELINE", os.path.join(SHARED, "baseline"))
LIMIT = 2.3
ROUNDS = 3


def found(argv):
    """The program that the words name, or the built one."""
    program = argv[0] if argv else os.path.join(TOP, "crates/xmpp/out/xmpp")
    if not os.access(program, os.X_OK):
        sys.exit(f"no program at {program}: ./xmpp --version builds it")
    return program


def run(program, path, word="replay"):
    """The processor's seconds (user and system) and the peak memory (MiB) of one run."""
    with open(path, "rb") as source, open(os.devnull, "wb") as sink:
        pid = os.posix_spawn(program, [program, word], os.environ,
                             file_actions=[(os.POSIX_SPAWN_DUP2, source.fileno(), 0), (os.POSIX_SPAWN_DUP2, sink.fileno(), 1)])
        _, status, usage = os.wait4(pid, 0)
    if status != 0:
        sys.exit(f"{program} ended with status {os.waitstatus_to_exitcode(status)}")
    return usage.ru_utime + usage.ru_stime, usage.ru_maxrss / 1024


def written(lines):
    """A file of those lines, which is gone once it is closed."""
    file = tempfile.NamedTemporaryFile("w", suffix=".schedule")
    file.write("\n".join(lines) + "\n")
    file.flush()
    return file


def least(runs):
    """The least of each kind."""
    return tuple(min(kind) for kind in zip(*runs))


def measure(program, lines, word="replay"):
    with written(lines) as file:
        return least([run(program, file.name, word) for _ in range(ROUNDS)])


def row(name, now, before):
    """Prints a row, and answers its ratios to the one before."""
    ratios = (now[0] / before[0], now[1] / before[1]) if before else None
    shown = [f"{r:6.2f}" if ratios else " " * 6 for r in (ratios or (0, 0))]
    print(f"{name:>12} {now[0]:9.3f} {shown[0]} {now[1]:8.1f} {shown[1]}")
    return ratios


def growth(program, of, sizes, schedule, word="replay"):
    """Prints a row for each size, and the worst ratio between neighbours. Answers the last row."""
    before, worst = None, 0.0
    print(f"{of:>12} {'proc. s':>9} {'ratio':>6} {'MiB':>8} {'ratio':>6}")
    for size in sizes:
        now = measure(program, schedule(size), word)
        worst = max(worst, *(row(f"{size:,}", now, before) or [worst]))
        before = now
    print(f"worst ratio {worst:.2f}, wanted below {LIMIT}")
    return before


def compare(program, lines, most_time, most_memory=None, word="replay"):
    """Prints the ratios to the baseline, whose runs take turns with ours."""
    if not os.access(BASELINE, os.X_OK):
        print(f"no baseline at {BASELINE}: not compared")
        return
    with written(lines) as file:
        pairs = [(run(program, file.name, word), run(BASELINE, file.name, word)) for _ in range(ROUNDS)]
    ours, theirs = (least(runs) for runs in zip(*pairs))
    print(f"{'':>10} {'proc. s':>9} {'MiB':>8}")
    print(f"{word:>10} {ours[0]:9.3f} {ours[1]:8.1f}")
    print(f"{'baseline':>10} {theirs[0]:9.3f} {theirs[1]:8.1f}")
    wanted = f"{most_time} and {most_memory}" if most_memory else f"{most_time} of the time"
    print(f"ratios to the baseline {ours[0] / theirs[0]:.2f} and {ours[1] / theirs[1]:.2f}, wanted at most {wanted}")
