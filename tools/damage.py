"""Kinds of damage to a report, each with when a report may be lawful behind it: then no check can find it."""

SPLITS = {"entry": 6, "logged": 6, "said": 5}


def plus(field):
    return str(int(field) + 1)


def minus(field):
    return str(int(field) - 1) if field != "0" else "1"


def other_id(field):
    return f"{int(field, 16) + 1:016x}" if field != "-" else f"{1:016x}"


def other_name(field):
    return "x" + field


def other_text(field):
    return field + "x"


def other_state(field):
    return "waiting" if field == "acknowledged" else "acknowledged"


def other_end(field):
    return "no" if field == "yes" else "yes"


# the word, the field of it, and what becomes of the field
FIELDS = [
    ("take", 1, other_name), ("take", 2, plus), ("take", 3, plus), ("take", 3, minus), ("take", 4, other_name), ("take", 5, plus),
    ("account", 1, other_name), ("account", 2, plus), ("account", 2, minus), ("account", 3, plus), ("account", 3, minus),
    ("entry", 1, other_id), ("entry", 2, plus), ("entry", 3, other_name), ("entry", 4, other_name), ("entry", 5, other_name),
    ("entry", 6, other_text), ("conn", 1, plus), ("conn", 2, other_name), ("conn", 4, lambda taken: taken + "0000001"),
    ("device", 1, other_name), ("device", 2, other_name), ("device", 3, minus), ("device", 4, other_end),
    ("said", 1, plus), ("said", 2, plus), ("said", 2, minus), ("said", 3, other_state), ("said", 4, other_name),
    ("said", 5, other_text), ("refused", 1, plus), ("page", 1, other_id), ("page", 1, lambda after: "-"), ("page", 2, plus),
    ("page", 2, minus), ("page", 4, plus), ("page", 4, minus),
    ("logged", 1, other_id), ("logged", 2, plus), ("logged", 3, other_name), ("logged", 4, other_name), ("logged", 5, other_name),
    ("logged", 6, other_text),
]


def words_of(line):
    word = line.split(" ")[0]
    return line.split(" ", SPLITS.get(word, -1))


def places(lines, word):
    return [at for at, line in enumerate(lines) if line.split(" ")[0] == word]


def changed(word, field, change):
    def edit(draw, lines):
        fit = [at for at in places(lines, word) if len(words_of(lines[at])) > field]
        if not fit:
            return None
        at = draw.choice(fit)
        words = words_of(lines[at])
        words[field] = change(words[field])
        return lines[:at] + [" ".join(words)] + lines[at + 1:], at
    return edit


def swapped(word):
    def edit(draw, lines):
        fit = [at for at in places(lines, word) if lines[at + 1].split(" ")[0] == word and lines[at] != lines[at + 1]]
        if not fit:
            return None
        at = draw.choice(fit)
        return lines[:at] + [lines[at + 1], lines[at]] + lines[at + 2:], at
    return edit


def repeated(word, times):
    """A line that is dropped, or doubled."""
    def edit(draw, lines):
        fit = places(lines, word)
        if not fit:
            return None
        at = draw.choice(fit)
        return lines[:at] + [lines[at]] * times + lines[at + 1:], at
    return edit


def entry_with_count(draw, lines):
    """An entry is left out, and its account counts one less."""
    fit = places(lines, "entry")
    if not fit:
        return None
    at = draw.choice(fit)
    owner = max(place for place in places(lines, "account") if place < at)
    words = lines[owner].split(" ")
    words[2] = minus(words[2])
    return lines[:owner] + [" ".join(words)] + lines[owner + 1:at] + lines[at + 1:], at


def break_alone(draw, lines):
    fit = places(lines, "logged")
    if not fit:
        return None
    at = draw.choice(fit)
    return lines[:at] + ["break"] + lines[at:], at


def asked_anew(draw, lines):
    """A page that stands behind an entry is said to have been asked for anew, with its break."""
    fit = []
    for start in places(lines, "device"):
        end = next(at for at in range(start + 1, len(lines)) if lines[at].split(" ")[0] in ("device", "end"))
        logged, seen = [at for at in places(lines[:end], "logged") if at > start], 0
        for at in (at for at in places(lines[:end], "page") if at > start):
            words = lines[at].split(" ")
            if words[1] != "-" and words[2] != "0":
                fit.append((at, logged[seen]))
            seen += int(words[2])
    if not fit:
        return None
    at, first = draw.choice(fit)
    words = lines[at].split(" ")
    return lines[:at] + [" ".join(["page", "-", *words[2:]])] + lines[at + 1:first] + ["break"] + lines[first:], at


def whole_page(draw, lines):
    """A page that isn't the last one is said to be, with the TOTAL that its entries come to; its reverse is `page_goes_on`."""
    fit = [at for at in places(lines, "page") if lines[at].endswith(" more")]
    if not fit:
        return None
    at = draw.choice(fit)
    words = lines[at].split(" ")
    last = int(words[2]) + (int(words[1], 16) if words[1] != "-" else 0)
    keep = lines[0].split(" ")[3:]
    total = min([last] + [int(number) for number in keep])
    return lines[:at] + [" ".join(words[:3] + ["complete", str(total)])] + lines[at + 1:], at


def page_goes_on(draw, lines):
    fit = [at for at in places(lines, "page") if " complete " in lines[at]]
    if not fit:
        return None
    at = draw.choice(fit)
    return lines[:at] + [" ".join(lines[at].split(" ")[:3] + ["more"])] + lines[at + 1:], at


def logged_is_held(draw, lines):
    fit = [at for at in places(lines, "logged") if lines[at + 1].split(" ")[0] in ("device", "end", "held")]
    if not fit:
        return None
    at = draw.choice(fit)
    return lines[:at + 1] + ["held " + lines[at].split(" ")[1]] + lines[at + 1:], at


def unended(draw, lines):
    return lines[:-1], len(lines) - 1


def double_blank(draw, lines):
    at = draw.randrange(len(lines) - 1)
    return lines[:at] + [lines[at].replace(" ", "  ", 1) if " " in lines[at] else lines[at] + " "] + lines[at + 1:], at


KINDS = {f"field {field} of {word}, {number}": changed(word, field, change)
         for number, (word, field, change) in enumerate(FIELDS)}
KINDS |= {f"swap two of {word}": swapped(word) for word in ("take", "entry", "conn", "said", "refused", "page", "logged")}
KINDS |= {f"drop {word}": repeated(word, 0) for word in ("take", "entry", "conn", "said", "refused", "page", "logged", "break")}
KINDS |= {f"double {word}": repeated(word, 2)
          for word in ("take", "entry", "conn", "said", "refused", "page", "logged", "held", "break")}
KINDS |= {"an entry with its count": entry_with_count, "a break alone": break_alone, "asked anew without a purge": asked_anew,
          "a page is complete": whole_page, "a page goes on": page_goes_on, "a logged one is held": logged_is_held,
          "no end": unended, "two blanks": double_blank}


# When a report may be lawful behind it. Each answers the reason, or nothing.

def device_at(r, lines, at):
    return r.devices[len(places(lines[:at + 1], "device")) - 1]


def is_seen(r, take, accounts):
    """An archive or a log of these accounts still has the entry of the take."""
    origin = f"{take.device}.{take.epoch}.{take.n}"
    kept = [e.origin for a in r.accounts if a.name in accounts for e in a.entries]
    return origin in kept or origin in [e.origin for d in r.devices if d.account in accounts for e in d.logged]


def lawful_take(kind, s, r, lines, at):
    take, owner = r.takes[at - 1], dict(s.devices)
    both = {owner[take.device], take.account}
    if kind == "swap two of take":
        behind = r.takes[at]
        both &= {owner[behind.device], behind.account}
        if not s.wire or take.device == behind.device or s.keep and take.moment != behind.moment:
            return None
        if not both:
            return "no archive has both"
        return None if is_seen(r, take, both) or is_seen(r, behind, both) else "both were purged, and no log has them"
    moment = kind.startswith("field 5 of take") and s.wire
    return "it was purged, and no log has it" if moment and not is_seen(r, take, both) else None


def lawful_said(kind, s, r, lines, at):
    device = device_at(r, lines, at)
    place = at - max(place for place in places(lines[:at], "device")) - 1
    said = device.said[place]
    peers = [m for m in device.said if m.epoch == said.epoch]
    earlier, later = peers[:said.n - 1], peers[said.n:]
    if kind.startswith("field 3") and said.state != "acknowledged":
        fits = all(m.state == "acknowledged" for m in earlier) and (said.taken or said.to not in s.accounts)
        return "it was taken, or its account doesn't exist" if fits else None
    if kind.startswith("field 3"):
        fits = s.wire and device.settled == "no" and all(m.state != "acknowledged" for m in later)
        return "no later one is acknowledged" if fits and said.epoch == device.epoch else None
    if kind.startswith("field 1"):
        alone = said.n == 1 and not later and not said.taken and said.epoch < device.epoch
        return "it is alone in its session, and wasn't taken" if alone else None
    return None


def lawful_device(kind, s, r, lines, at):
    device = device_at(r, lines, at)
    present = [m for m in device.said if m.epoch == device.epoch]
    if kind.startswith("field 3"):
        return "there is no message of that session" if s.wire and not present else None
    if kind.startswith("field 4") and device.settled == "yes":
        return "no law says that a device is settled" if s.wire else None
    if kind.startswith("field 4"):
        newest = [c for c in r.conns if c.device == device.name][-1:]
        still = [c.end == "open" and c.upput == c.uptaken and c.downput == c.downtaken for c in newest] == [True]
        fits = still and not device.underway and all(m.state == "acknowledged" for m in present)
        return "nothing is outstanding but part of an item" if fits else None
    return None


def lawful_refused(kind, s, r, lines, at):
    number = int(lines[at].split(" ")[1])
    asked = {line: (what, text) for line, what, text in s.asked[device_at(r, lines, at).name]}
    what, text = asked[number]
    behind = asked.get(number + 1)
    if text is None and kind == "drop refused":
        return "a catch-up may come to no page"
    same = behind and (text is None and behind[1] is None or (what, text) == behind)
    if kind.startswith("field 1") and same:
        return "the next line asks the same"
    return None


def lawful_page(kind, s, r, lines, at):
    words = lines[at].split(" ")
    if not s.wire:
        return None
    if kind == "a page goes on" and words[2] != "0":
        return "the catch-up may have been broken off"
    if kind == "a page is complete":
        return "the archive may have ended there"
    if kind in ("drop page", "double page") and words[2] == "0":
        return "a page without entries"
    if kind == "asked anew without a purge" and s.keep:
        account = next(a for a in r.accounts if a.name == device_at(r, lines, at).account)
        return "it was purged in the end" if int(words[1], 16) <= account.last - s.keep else None
    return None


def may_be_lawful(kind, s, r, lines, at):
    """Why no check can find this damage at this line, or nothing."""
    word = lines[at].split(" ")[0]
    judge = {"take": lawful_take, "said": lawful_said, "device": lawful_device, "refused": lawful_refused, "page": lawful_page}
    return judge[word](kind, s, r, lines, at) if word in judge else None
