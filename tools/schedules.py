"""Schedules with connections, made from numbers: devices dial, lose their connections at any byte, and come back."""
import random

TEXTS = ["hi", "<&>'\"", "]]>", " two  blanks ", "zwei Wörter é😀", "x" * 40, "a", "&amp;"]
KEEPS = [None, None, None, 1, 2, 3, 5, 20, 4_294_967_295]
HEADERS = ["xmpp-schedule 1 wire", "xmpp-schedule 2 wire 0", "xmpp-schedule 2 wire", "xmpp-schedule 2 direct 3"]
NUMBERS = ["", "-1", "01", "1.5", "x", "4294967296", "99999999999999999999"]


class Schedule:
    """A schedule under way: its lines, and of each device its newest connection."""

    def __init__(self, draw):
        self.draw, self.lines, self.dials, self.newest = draw, [], 0, {}
        keep = draw.choice(KEEPS)
        self.add(f"xmpp-schedule 2 wire {keep}" if keep else "xmpp-schedule 1 wire")
        names = [f"a{i}" for i in range(draw.choice([1, 2, 2, 3, 4]))]
        if draw.random() < 0.1:
            names[0] = "a" * 32
        for name in names:
            self.add(f"account {name}")
        self.accounts = names + ["late", "nobody"]
        self.late = draw.random() < 0.3
        self.devices, self.owner = [], {}
        for i in range(draw.choice([1, 2, 2, 3, 4, 6])):
            self.declare(f"d{i}")

    def add(self, *lines):
        self.lines += lines

    def declare(self, device):
        self.owner[device] = self.draw.choice(self.accounts[:-2])
        self.add(f"device {device} {self.owner[device]}")
        self.devices.append(device)

    def device(self):
        return self.draw.choice(self.devices)

    def dial(self, device):
        self.dials += 1
        self.newest[device] = self.dials
        self.add(f"dial {device}")

    def conn(self):
        """Mostly a connection that a device has, sometimes an older one."""
        if self.draw.random() < 0.15:
            return self.draw.randrange(1, self.dials + 1)
        return self.draw.choice(list(self.newest.values()))

    def count(self, some):
        return self.draw.choice([0, 1, 2, self.draw.randrange(30), *[self.draw.randrange(some) for _ in range(4)], 4_294_967_295])


def text(draw):
    return draw.choice(TEXTS) if draw.random() < 0.97 else "é" * draw.randrange(1, 501)


def says(made, device=None):
    word = made.draw.choice(["say", "say", "say", "private"])
    made.add(f"{word} {device or made.device()} {made.draw.choice(made.accounts)} {text(made.draw)}")


def talks(made):
    for _ in range(made.draw.randrange(1, 8)):
        says(made)


def catches_up(made):
    made.add(f"catchup {made.device()} {made.draw.choice([1, 2, 3, 10, 100])}")


def runs(made):
    made.add(f"run {made.draw.choice([1, 1, 1, 2, 3, 8])}")


def passes(made):
    made.add(f"pass {made.conn()} {made.draw.choice([1, 1, 2, 4, 5, 7])}")


def hands_over(made):
    """Some bytes of a connection, now up and now down."""
    conn = made.conn()
    for _ in range(made.draw.choice([1, 1, 2, 6])):
        number = "all" if made.draw.random() < 0.3 else made.count(800)
        made.add(f"{made.draw.choice(['up', 'down'])} {conn} {number}")


def cut(made):
    made.add(f"cut {made.conn()} {made.count(1200)} {made.count(3000)}")


def ticks(made):
    made.add(f"tick {made.draw.choice([0, 1, 1000, 299_999, 300_000, 1_000_000_000])}")


def back(made, device):
    """A device dials, and goes on to be bound again, or not so far."""
    made.dial(device)
    conn = made.newest[device]
    made.add(made.draw.choice([f"pass {conn} {made.draw.randrange(1, 9)}", "run 8", "run 8", f"up {conn} all"]))


def loses(made):
    """A connection is cut with messages or a page under way; the device comes back, in time or too late."""
    device = made.device()
    conn = made.newest.get(device)
    if not conn:
        return made.dial(device)
    for _ in range(made.draw.randrange(4)):
        says(made, device)
    moves = [f"catchup {device} 3", f"pass {conn} 1", f"up {conn} all", f"down {conn} 200"]
    made.add(*made.draw.sample(moves, made.draw.randrange(4)))
    made.add(f"cut {conn} {made.count(1200)} {made.count(3000)}")
    made.add(*made.draw.choice([[f"up {conn} all", f"down {conn} all"], [f"up {conn} all"], [f"down {conn} all"], []]))
    if made.draw.random() < 0.4:
        says(made)
        ticks(made)
    if made.draw.random() < 0.2:
        made.add(f"forget {device}")
    back(made, device)


def late_resumption(made):
    """The words of an older connection reach the server after those of the newest one."""
    device = made.device()
    made.dial(device)
    old = made.dials
    made.add(f"pass {old} {made.draw.choice([3, 4, 4, 5])}")
    made.dial(device)
    made.add(f"pass {made.dials} {made.draw.choice([4, 5, 6])}")
    if made.draw.random() < 0.5:
        made.add(f"catchup {device} 10", f"pass {made.dials} 1")
        back(made, device)
    made.add(f"up {old} all", f"down {made.dials} all")
    back(made, device)


def leaves(made):
    device = made.device()
    made.add(f"{made.draw.choice(['forget', 'close'])} {device}")
    if made.draw.random() < 0.6:
        made.add("run 2")
        back(made, device)


def dials(made):
    back(made, made.device())


def declares(made):
    """An account or a device that is declared behind messages."""
    if made.late and "account late" not in made.lines:
        made.add("account late")
    elif len(made.devices) < 8:
        made.declare(f"d{len(made.devices)}")


def many_says(made):
    """More than a device has room for where nothing is acknowledged."""
    device = made.device()
    made.add(*[f"say {device} {made.accounts[0]} {i}" for i in range(made.draw.choice([999, 1003]))], "run 1")


def many_stanzas(made):
    """More than the server keeps for a device that says nothing."""
    sender, quiet = made.devices[0], made.devices[-1]
    if sender == quiet or not {sender, quiet} <= set(made.newest):
        return
    for _ in range(13):
        made.add(*[f"say {sender} {made.owner[quiet]} {i}" for i in range(900)], f"pass {made.newest[sender]} 2")


STEPS = [(says, 5), (talks, 3), (catches_up, 3), (runs, 4), (passes, 3), (hands_over, 3), (cut, 1), (ticks, 1), (loses, 4),
         (late_resumption, 1), (leaves, 1), (dials, 1), (declares, 0.5), (many_says, 0.02), (many_stanzas, 0.005)]
NEEDS_CONNECTION = (passes, hands_over, cut)


def spoilt(draw, lines):
    """The same with a line or a field that may not be."""
    at = draw.randrange(len(lines))
    words = lines[at].split(" ")
    field = draw.randrange(len(words))
    how = draw.randrange(9)
    if how == 0:
        del words[field]
    elif how == 1:
        words.insert(field, "")
    elif how == 2:
        words[field] = draw.choice(NUMBERS)
    elif how == 3:
        words[-1] = draw.choice(NUMBERS + ["0", "101", "1001", "1000000001", "all"])
    elif how == 4:
        words[field] = draw.choice(["Nobody", "d0", "d9", "a" * 33, "é", "run", "account a0", "restart"])
    elif how == 5:
        words[-1] += draw.choice([" ", "\t", "\x01", "\r", "￾", "x" * 1_001])
    elif how == 6:
        words = draw.choice(lines[1:]).split(" ")
    elif how == 7:
        many = draw.choice([["run 1000"] * 101, ["dial d0"] * 10_001, [f"account b{i}" for i in range(100)]])
        return lines[:at] + many + lines[at:]
    else:
        at, words = 0, draw.choice(HEADERS).split(" ")
    return lines[:at] + [" ".join(words)] + lines[at + 1:]


def good_lines(draw):
    """The lines of a schedule without anything that may not be."""
    made = Schedule(draw)
    if draw.random() < 0.85:
        for device in made.devices:
            made.dial(device)
        made.add(draw.choice(["run 8", "run 8", "run 12", "run 4"]))
    for _ in range(draw.randrange(3, 45)):
        step = draw.choices([step for step, _ in STEPS], [weight for _, weight in STEPS])[0]
        if made.newest or step not in NEEDS_CONNECTION:
            step(made)
    if draw.random() < 0.4:
        for device in made.devices:
            made.dial(device)
        made.add("run 12", *[f"catchup {device} 100" for device in made.devices], "run 100")
    return made.lines


def good_schedule(number):
    """The bytes of the schedule of that number, with nothing in it that may not be."""
    return ("\n".join(good_lines(random.Random(number))) + "\n").encode()


def direct_schedule(number):
    """The same without its lines of connections."""
    lines = good_lines(random.Random(number))
    both = [line for line in lines[1:] if line.split(" ")[0] in ("account", "device", "say", "private", "catchup", "tick")]
    return ("\n".join([lines[0].replace("wire", "direct"), *both]) + "\n").encode()


def perhaps_spoilt(number, good):
    """The bytes of these lines: of one number in eight with something in them that may not be."""
    draw = random.Random(f"file {number}")
    lines = spoilt(draw, good) if draw.random() < 0.125 else good
    return ("\n".join(lines) + "\n").encode()


def schedule(number):
    """The bytes of the schedule of that number: one in eight has something in it that may not be."""
    draw = random.Random(number)
    good = good_lines(draw)
    lines = spoilt(draw, good) if draw.random() < 0.125 else good
    whole = ("\n".join(lines) + "\n").encode()
    if draw.random() < 0.02:
        return draw.choice([whole[:-1], whole.replace(b"say", b"s\xffy", 1), whole.replace(b"\n", b"\r\n", 1)])
    return whole
