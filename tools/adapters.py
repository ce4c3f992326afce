"""What the tools share that try the adapters of the system, of which no clause says what they do: sockets, clock, random
bytes."""
import os
import signal
import subprocess
import sys

import sockets

ACCOUNTS = "xmpp-accounts 1\ndomain chat.example\naccount alice pw-alice\naccount bob pw-bob\n"
SHOWN = 200


def want(what, given, wanted):
    if given != wanted:
        raise ValueError(f"{what}: {str(given)[:SHOWN]}, wanted {str(wanted)[:SHOWN]}")


def events(journal):
    """The events of a journal: word, connection, moment, and bytes or None."""
    for line in journal.split("\n"):
        words = line.split(" ")
        if words[0] in ("connect", "piece", "gone"):
            yield words[0], int(words[1]), int(words[2]), bytes.fromhex(words[3]) if len(words) > 3 else None


def texts(journal, account):
    """The texts of an account's archive."""
    part = journal.split(f"\naccount {account} ")[1].split("\naccount ")[0]
    return [line.split(" ", 6)[6] for line in part.split("\n") if line.startswith("entry ")]


def journal_of(server):
    """The journal of a server that has ended with status 0."""
    status, journal, _ = server.ended()
    if status == -signal.SIGKILL:
        raise ValueError(f"serve did not end within {sockets.SECONDS} s")
    want("status and output of serve", (status, journal if status else ""), (0, ""))
    return journal


def end_of(server):
    """What to say of a server that has ended by now, or is about to."""
    try:
        return f"; serve has ended with status {server.run.wait(1)}"
    except subprocess.TimeoutExpired:
        return ""


def main(argv, check):
    """Calls a check with the program of the command line, and says what came of it: its status."""
    name = os.path.basename(sys.argv[0])
    program = os.path.abspath(argv[0] if argv else os.path.join(sockets.TOP, "crates/xmpp/out/xmpp"))
    if not os.access(program, os.X_OK):
        print(f"{name}: there is no program at {program}")
        return 2
    try:
        print(f"PASS {check(program)}")
        return 0
    except (OSError, ValueError, IndexError, TypeError, subprocess.SubprocessError) as why:
        print(f"FAIL {why}")
        return 1
