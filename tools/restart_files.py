"""Files of restarts, made from numbers: schedules in which the server is started again."""
import random

import schedules
from intent_files import keep_of


def good_file(number):
    """The lines of the file of that number, with nothing in them that may not be."""
    draw = random.Random(f"restarts {number}")
    lines = schedules.good_lines(random.Random(number))
    made, share = [f"xmpp-restarts 1 {keep_of(lines[0])}"], draw.choice([0.02, 0.1, 0.3])
    devices = [line.split(" ")[1] for line in lines if line.startswith("device ")]
    for line in lines[1:]:
        made.append(line)
        if draw.random() < share:
            made += ["restart"] * draw.choice([1, 1, 1, 2])
            if draw.random() < 0.5:
                made += [f"dial {draw.choice(devices)}", draw.choice(["run 8", "run 3"])]
    return made


def file(number):
    """The bytes of the file of that number: one in eight has something in it that may not be."""
    return schedules.perhaps_spoilt(number, good_file(number))
