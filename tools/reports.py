"""Schedules and reports of `replay`, read from their texts by what docs/FORMATS.md says of them."""
import re
from types import SimpleNamespace

NAME, NUMBER, ID = "[a-z][a-z0-9]{0,31}", "0|[1-9][0-9]*", "[0-9a-f]{16}"
ADDRESS = f"{NAME}@chat[.]example"
ENTRY = (f"(?P<id>{ID}) (?P<stamp>{NUMBER}) (?P<sender>{ADDRESS}/{NAME}) (?P<to>{ADDRESS}) "
         f"(?P<origin>{NAME}[.](?:{NUMBER})[.](?:{NUMBER})) (?P<text>.+)")
FORMS = {
    "take": f"(?P<device>{NAME}) (?P<epoch>{NUMBER}) (?P<n>{NUMBER}) (?P<account>{NAME})",
    "account": f"(?P<name>{NAME}) (?P<count>{NUMBER})",
    "entry": ENTRY,
    "conn": f"(?P<k>{NUMBER}) (?P<device>{NAME}) (?P<upput>{NUMBER}) (?P<uptaken>{NUMBER}) (?P<downput>{NUMBER}) "
            f"(?P<downtaken>{NUMBER}) (?P<end>cut|left|shut|open)",
    "device": f"(?P<name>{NAME}) (?P<account>{NAME}) (?P<epoch>{NUMBER}) (?P<settled>yes|no)",
    "said": f"(?P<epoch>{NUMBER}) (?P<n>{NUMBER}) (?P<state>acknowledged|waiting|undecided) (?P<to>{NAME}) (?P<text>.+)",
    "refused": f"(?P<line>{NUMBER}) (?P<why>NotBound|OutboxFull|Underway)",
    "page": f"(?P<after>{ID}|-) (?P<count>{NUMBER}) (?:more|complete (?P<total>{NUMBER}))",
    "underway": f"(?P<queryid>[^ ]+) (?P<got>{NUMBER})",
    "logged": ENTRY,
    "held": f"(?P<id>{ID})",
}
# the fields that lines of version 2 have besides
MORE = {"take": f" (?P<moment>{NUMBER})", "account": f" (?P<last>{NUMBER})"}
NUMBERS = {"stamp", "epoch", "n", "count", "k", "upput", "uptaken", "downput", "downtaken", "line", "total", "got", "moment",
           "last"}


class Wrong(Exception):
    """What is wrong with a report."""


class Lines:
    """The lines of a report, read in their order."""

    def __init__(self, lines, version):
        self.lines, self.at = lines, 0
        more = MORE if version == 2 else {}
        self.forms = {word: re.compile(f"{word} {form}{more.get(word, '')}", re.DOTALL) for word, form in FORMS.items()}

    def word(self):
        return self.lines[self.at].split(" ")[0] if self.at < len(self.lines) else None

    def one(self, word):
        """The fields of the line that comes, which has to be of this word."""
        line = self.lines[self.at] if self.at < len(self.lines) else "nothing"
        match = self.forms[word].fullmatch(line)
        if not match:
            raise Wrong(f"form: line {self.at + 1} is '{line:.80}', wanted a line `{word}`")
        self.at += 1
        fields = match.groupdict().items()
        return SimpleNamespace(**{name: int(text) if name in NUMBERS and text else text for name, text in fields})

    def many(self, word):
        found = []
        while self.word() == word:
            found.append(self.one(word))
        return found

    def logged(self, version):
        """The lines of a log, each with whether a break stands before it."""
        found = []
        while self.word() == "logged" or version == 2 and self.lines[self.at:self.at + 1] == ["break"]:
            broken = self.word() == "break"
            self.at += broken
            found.append(self.one("logged"))
            found[-1].broken = broken
        return found


def read_report(text, schedule):
    """The report of a schedule, whose first line and form it has to have."""
    lines = text.decode().split("\n")
    if lines.pop() != "":
        raise Wrong("form: the last line isn't ended")
    header = schedule.header.replace("schedule", "report", 1)
    if lines[:1] != [header] or lines[-1:] != ["end"]:
        raise Wrong(f"form: the first line isn't '{header}', or the last one isn't 'end'")
    read = Lines(lines, schedule.version)
    read.at = 1
    report = SimpleNamespace(takes=read.many("take"), accounts=[], devices=[])
    while read.word() == "account":
        account = read.one("account")
        account.entries = read.many("entry")
        account.__dict__.setdefault("last", account.count)
        report.accounts.append(account)
    report.conns = read.many("conn")
    while read.word() == "device":
        device = read.one("device")
        for word in ("said", "refused", "page", "underway"):
            setattr(device, word, read.many(word))
        device.logged, device.held = read.logged(schedule.version), read.many("held")
        report.devices.append(device)
    if read.at != len(lines) - 1:
        raise Wrong(f"form: line {read.at + 1} '{lines[read.at]:.80}' may not stand there")
    return report


def read_schedule(text):
    """A schedule that has no bad line: what its lines ask for, and what the clock shows at each."""
    lines = text.decode().split("\n")[:-1]
    words = lines[0].split(" ")
    schedule = SimpleNamespace(header=lines[0], version=int(words[1]), wire=words[2] == "wire", accounts=[], devices=[], dials=[],
                               asked={}, clock=[0, 0], catchups={})
    schedule.keep = int(words[3]) if schedule.version == 2 else None
    for number, line in enumerate(lines[1:], 2):
        word, *fields = line.split(" ", 3)
        now = schedule.clock[-1]
        schedule.clock.append(now)
        if word == "account":
            schedule.accounts.append(fields[0])
        elif word == "device":
            schedule.devices.append((fields[0], fields[1]))
        elif word == "dial":
            schedule.dials.append(fields[0])
        elif word in ("say", "private"):
            schedule.asked.setdefault(fields[0], []).append((number, fields[1], fields[2]))
        elif word == "catchup":
            schedule.asked.setdefault(fields[0], []).append((number, int(fields[1]), None))
        elif word == "tick":
            schedule.clock[-1] = now + int(fields[0])
    # clock[n] is what the clock shows before line n, and behind line n - 1
    schedule.clock = [0] + schedule.clock
    schedule.lines = len(lines)
    return schedule
