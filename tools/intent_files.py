"""Files of intents, made from numbers: schedules in which some messages are intents, and devices that come back resolve them."""
import random

import schedules

# a file may have 1,000 lines of either kind
MOST = 900


def keep_of(header):
    """The KEEP that the first line of a schedule says. Version 1 drops nothing."""
    words = header.split(" ")
    return int(words[3]) if len(words) == 4 else 4_294_967_295


def as_intents(draw, lines):
    """Some messages become intents, and some catch-ups resolve them."""
    share, left = draw.choice([0.2, 0.5, 1.0]), {"say": MOST, "catchup": MOST}
    words = {"say": "intent", "catchup": "resolve"}
    made = []
    for line in lines:
        word, _, rest = line.partition(" ")
        if left.get(word, 0) > 0 and draw.random() < share:
            left[word] -= 1
            line = f"{words[word]} {rest}"
        made.append(line)
    return made


def lost(draw, device, account, dials):
    """Intents of a device that are lost on their way, or not; it comes back with another session, and resolves them."""
    made = [f"intent {device} {account} lost {at}" for at in range(draw.choice([1, 1, 2, 5]))]
    made += draw.choice([[], [], [f"cut {dials} {draw.randrange(2_000)} {draw.randrange(2_000)}"], [f"up {dials} all"]])
    made += draw.choice([[f"forget {device}"], [f"forget {device}"], ["tick 300000"], []])
    made += [f"dial {device}", draw.choice(["run 8", "run 8", f"pass {dials + 1} 7", f"pass {dials + 1} 4"])]
    made += draw.choice([[], [f"up {dials} all"], [f"say {device} {account} between"]])
    made += [f"resolve {device} {draw.choice([1, 2, 10, 100])}", draw.choice(["run 1", "run 2", "run 3"])] * draw.choice([1, 2, 3])
    return made


def good_file(number):
    """The lines of the file of that number, with nothing in them that may not be."""
    draw = random.Random(f"intents {number}")
    lines = schedules.good_lines(random.Random(number))
    made = [f"xmpp-intents 1 {keep_of(lines[0])}", *as_intents(draw, lines[1:])]
    accounts = [line.split(" ")[1] for line in made if line.startswith("account ")]
    devices = [line.split(" ")[1] for line in made if line.startswith("device ")]
    for _ in range(draw.choice([0, 1, 1, 2, 4])):
        device = draw.choice(devices)
        dials = sum(line.startswith("dial ") for line in made)
        made += [f"dial {device}", draw.choice(["run 8", "run 8", "run 4"])]
        made += lost(draw, device, draw.choice([*accounts, "nobody"]), dials + 1)
    return made


def file(number):
    """The bytes of the file of that number: one in eight has something in it that may not be."""
    return schedules.perhaps_spoilt(number, good_file(number))


def cut_files():
    """A message that is cut behind each of its bytes, or not: with each file how many of them reach the server."""
    for passed in range(200):
        lines = ["xmpp-intents 1 4294967295", "account alice", "account bob", "device phone alice", "dial phone", "run 8",
                 "intent phone bob lost", f"cut 1 {passed} 0", "forget phone", "dial phone", "up 1 all", "pass 2 7",
                 "resolve phone 10", "run 2", "resolve phone 10", "run 2"]
        yield passed, ("\n".join(lines) + "\n").encode()
