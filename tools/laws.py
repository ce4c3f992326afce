"""The five laws of docs/CLAIMS.md, as far as a schedule and the report of its run decide them."""
import bisect
import itertools
from types import SimpleNamespace

from reports import Wrong

LARGEST = 4_294_967_295


def need(holds, law, what):
    if not holds:
        raise Wrong(f"{law}: {what}")


def number_of(id):
    """The number of an entry whose id is so, and 0 for `-`."""
    return 0 if id == "-" else int(id, 16)


def rises(values):
    return all(a < b for a, b in zip(values, values[1:]))


def never_falls(values):
    return all(a <= b for a, b in zip(values, values[1:]))


# What the report has for the schedule.

def check_whole(s, r):
    need([a.name for a in r.accounts] == s.accounts, "whole", "the accounts aren't the declared ones")
    need([(d.name, d.account) for d in r.devices] == s.devices, "whole", "the devices aren't the declared ones")
    for a in r.accounts:
        need(a.count == len(a.entries), "whole", f"{a.name} counts {a.count} of {len(a.entries)} entries")
    need([(c.k, c.device) for c in r.conns] == list(enumerate(s.dials, 1)), "whole", "the connections aren't the dialled ones")
    newest = {device: k for k, device in enumerate(s.dials, 1)}
    for c in r.conns:
        need(c.uptaken <= c.upput and c.downtaken <= c.downput, "whole", f"connection {c.k} handed over more than entered")
        need(c.end != "open" or newest[c.device] == c.k, "whole", f"connection {c.k} is open behind a newer one")
    for d in r.devices:
        need(not s.wire or d.epoch <= s.dials.count(d.name), "whole", f"{d.name} has more sessions than connections")
        need(len(d.underway) <= 1, "whole", f"{d.name} has two pages under way")


# Law 1

def check_said(s, d):
    """Each line that asks the device is one submission or one refused line, or a catch-up; in order."""
    said, refused, d.catchups = list(d.said), list(d.refused), []
    for line, what, text in s.asked.get(d.name, []):
        if refused and refused[0].line == line:
            need(text is None or refused[0].why != "Underway", "taken", f"{d.name} refused line {line} with another reason")
            refused.pop(0)
        elif text is None:
            d.catchups.append((line, what))
        else:
            need(said and (said[0].to, said[0].text) == (what, text), "taken", f"line {line} is no submission of {d.name}")
            said.pop(0).line = line
    need(not said and not refused, "taken", f"{d.name} has submissions or refused lines that no line asks for")
    before = (0, 0)
    for m in d.said:
        follows = m.epoch == before[0] and m.n == before[1] + 1 or m.epoch > before[0] and m.n == 1
        need(follows and 1 <= m.epoch <= d.epoch, "taken", f"{d.name} has {m.epoch} {m.n} behind {before}")
        before = (m.epoch, m.n)


def check_takes(s, r):
    """Each take is of a submission to its account, which exists; the history of each account is what they make of it."""
    devices = {d.name: d for d in r.devices}
    said = {(d.name, m.epoch, m.n): m for d in r.devices for m in d.said}
    r.history = {name: [] for name in s.accounts}
    for t in r.takes:
        m, name = said.get((t.device, t.epoch, t.n)), f"{t.device}.{t.epoch}.{t.n}"
        need(m is not None and m.to == t.account, "taken", f"{name} was not submitted to {t.account}")
        need(t.account in r.history, "taken", f"{name} was taken to {t.account}, which isn't an account")
        own = devices[t.device].account
        t.line = m.line
        for account in {own, t.account}:
            sender, to = f"{own}@chat.example/{t.device}", f"{t.account}@chat.example"
            r.history[account].append((t, (f"{len(r.history[account]) + 1:016x}", sender, to, name, m.text)))


def plain(e):
    return e.id, e.sender, e.to, e.origin, e.text


def check_archives(s, r):
    """The archives are the newest of the histories, and what is known of the moments fits the clock."""
    for a in r.accounts:
        history = r.history[a.name]
        kept = history[-s.keep:] if s.keep else history
        need(s.keep is None or a.last == len(history), "taken", f"{a.name} says LAST {a.last} of {len(history)}")
        need(len(a.entries) == len(kept), "taken", f"{a.name} keeps {len(a.entries)} entries of {len(kept)}")
        for e, (take, entry) in zip(a.entries, kept):
            need(plain(e) == entry, "taken", f"{a.name} has {plain(e)}, and {entry} was taken")
            # version 1 tells the moment of a take by the stamps of its entries alone
            moment = take.__dict__.setdefault("moment", e.stamp)
            need(moment == e.stamp, "taken", f"the stamp of {e.origin} is {e.stamp}, taken at {moment}")
        need(never_falls([e.stamp for e in a.entries]), "taken", f"along the archive of {a.name} stamps fall")
    shown = set(s.clock)
    for t in r.takes:
        need(t.moment in shown and s.clock[t.line] <= t.moment, "taken", f"no take of line {t.line} can be at {t.moment}")
        need(s.wire or t.moment == s.clock[t.line], "taken", f"line {t.line} was taken at {t.moment}")
    need(never_falls([t.moment for t in r.takes]), "taken", "the moments of the takes fall")
    need(s.wire or rises([t.line for t in r.takes]), "taken", "the takes aren't in the schedule's order")


# Laws 2 and 3

def check_order(s, r, d):
    taken = [(t.epoch, t.n) for t in r.takes if t.device == d.name]
    need(rises(taken), "once and in order", f"the takes of {d.name} don't rise")
    had, gaps = set(taken), set()
    for m in d.said:
        m.taken = (m.epoch, m.n) in had
        skips = m.taken and m.epoch in gaps
        need(not skips, "once and in order", f"{d.name} {m.epoch} {m.n} was taken without an earlier one")
        if not m.taken and m.to in s.accounts:
            gaps.add(m.epoch)


def check_states(s, r, d):
    law, behind = "acknowledged", set()
    for m in d.said:
        name = f"{d.name} {m.epoch} {m.n}"
        if m.state == "acknowledged":
            need(m.taken or m.to not in s.accounts, law, f"{name} is acknowledged and wasn't taken")
            need(m.epoch not in behind, law, f"{name} is acknowledged and an earlier one isn't")
        behind |= {m.epoch} if m.state != "acknowledged" else set()
        need(m.state != "waiting" or m.epoch == d.epoch, law, f"{name} waits in an older session")
    present = [m.state for m in d.said if m.epoch == d.epoch]
    need(not {"waiting", "undecided"} <= set(present), law, f"of {d.name}'s session some wait and some are undecided")
    if d.settled == "yes":
        need(not d.underway and set(present) <= {"acknowledged"}, "settled", f"{d.name} is settled, and something waits")
        newest = [c for c in r.conns if c.device == d.name][-1:]
        still = [c.end == "open" and c.upput == c.uptaken and c.downput == c.downtaken for c in newest]
        need(still == [True] or not s.wire, "settled", f"{d.name} is settled, and its connection isn't still")
    if not s.wire:
        need((d.settled, d.epoch, d.refused, d.held) == ("yes", 1, [], []), "settled", f"{d.name} of a direct run was disturbed")
        need(set(present) <= {"acknowledged"}, "settled", f"{d.name} of a direct run isn't acknowledged all")


# Law 4

def check_log(s, r, d):
    law, history = ("prefix" if s.keep is None else "runs"), r.history[d.account]
    ids = [number_of(e.id) for e in d.logged]
    for e, n in zip(d.logged, ids):
        need(1 <= n <= len(history), law, f"{d.name} logged {n} of {len(history)}")
        take, entry = history[n - 1]
        need(plain(e) == entry and e.stamp == take.moment, law, f"{d.name} logged {plain(e)}, and {entry} was taken")
    need(rises(ids), law, f"the numbers that {d.name} logged don't rise")
    for before, n, e in zip([0] + ids, ids, d.logged):
        # a first run may begin behind entries that were purged, a later one stands behind a break
        need(e.broken or n == before + 1 or s.keep and not before, law, f"{d.name} logged {n} behind {before} without a break")
    need(not any(e.broken for e in d.logged[:1]), law, f"{d.name} has a break before its first entry")
    last, logged = (ids[-1] if ids else 0), set(ids)
    first_kept = max(1, len(history) - (s.keep or LARGEST) + 1)
    need(set(range(first_kept, last + 1)) <= logged, law, f"{d.name} lacks an entry that is kept, up to {last}")
    held = [number_of(h.id) for h in d.held]
    need(len(set(held)) == len(held), law, f"{d.name} holds a message twice")
    for n in held:
        need(1 <= n <= len(history) and n not in logged, law, f"{d.name} holds {n}, which isn't of the history or is logged")
        need(s.keep or n > last, law, f"{d.name} holds {n}, and its log ends with {last}")


# Law 5

def window(s, d, history, before, behind):
    """Of a page with so many complete ones before it, and so many from it on: what the account's archive had given, at least
    when the page was asked for and at most when it had been taken over, and the MAX of the catch-ups that it can be of. A
    catch-up has at most one complete page, and it is its last one."""
    ended = len(d.catchups) - len(d.underway)
    first, last = before, (ended - behind if behind else len(d.catchups) - 1)
    need(first <= last < len(d.catchups), "pages", f"{d.name} has more pages than it can have asked for")
    line = d.catchups[first][0]
    until = d.catchups[last + 1][0] if last + 1 < len(d.catchups) else s.lines + 1
    if s.wire:
        least = bisect.bisect_left(history.moments, s.clock[line])
        most = min(bisect.bisect_right(history.moments, s.clock[until]), bisect.bisect_right(history.lines, until))
    else:
        least = most = bisect.bisect_left(history.lines, line)
    return least, most, max(most_asked for _, most_asked in d.catchups[first:last + 1])


def check_page(s, d, page, at, least, most):
    """A page behind so many logged lines: its tile, and what archives between `least` and `most` can have kept."""
    log, lines = d.logged[max(0, at - 1):at], d.logged[at:at + page.count]
    law, keep, name = "pages", s.keep or LARGEST, f"the page of {d.name} after {page.after} with {page.count}"
    before = number_of(log[-1].id) if log else 0
    again = page.after == "-" and bool(log)
    need(page.after == (log[-1].id if log else "-") or s.keep and again, law, f"{name} stands behind {before}")
    need(len(lines) == page.count and (page.total is not None or lines), law, f"{name} has {len(lines)} lines")
    need(lines or not again, law, f"{name} was asked for anew and brought nothing")
    need([e.broken for e in lines] == [again and at == 0 for at in range(len(lines))], law, f"{name} has a break elsewhere")
    last = number_of(lines[-1].id) if lines else before
    need(last <= most, law, f"{name} brought {last} where {most} were taken")
    if page.after == "-":
        need(before < max(1, most - keep + 1), law, f"{name} was asked for anew, and {before} was kept")
        if lines:
            first = number_of(lines[0].id)
            need(max(1, least - keep + 1) <= first <= max(1, most - keep + 1), law, f"{name} begins with {first}")
    else:
        need(before >= least - keep + 1, law, f"{name} was asked for when {before} was purged")
    if page.total is not None:
        need(least <= last, law, f"{name} is complete with {last}, where {least} were taken before")
        need(page.total == min(last, keep), law, f"{name} says TOTAL {page.total}, and its last entry is {last}")
        end = at + page.count
        newest = [number_of(e.id) for e in d.logged[max(0, end - page.total):end]]
        need(newest == list(range(last - page.total + 1, last + 1)), law, f"{name} leaves out what was kept")


def check_pages(s, r, d):
    takes = [take for take, _ in r.history[d.account]]
    # what was sent from the first take up to each one, at the latest
    lines = list(itertools.accumulate((take.line for take in takes), max))
    history = SimpleNamespace(moments=[take.moment for take in takes], lines=lines)
    at, before, complete = 0, 0, sum(page.total is not None for page in d.page)
    for page in d.page:
        least, most, asked = window(s, d, history, before, complete - before)
        need(page.count <= asked, "pages", f"{d.name} has a page of {page.count}, and asked for {asked}")
        check_page(s, d, page, at, least, most)
        at, before = at + page.count, before + (page.total is not None)
    need(at == len(d.logged), "pages", f"the pages of {d.name} have {at} of {len(d.logged)} entries")
    need(not d.underway or d.catchups, "pages", f"{d.name} has a page under way that it didn't ask for")
    need(complete <= len(d.catchups) - len(d.underway), "pages", f"{d.name} has more complete pages than catch-ups")
    need(s.wire or complete == len(d.catchups), "pages", f"{d.name} has {complete} complete pages of {len(d.catchups)} catch-ups")


def check_laws(s, r):
    """Raises `Wrong` with the first law that the report doesn't keep."""
    check_whole(s, r)
    for d in r.devices:
        check_said(s, d)
    check_takes(s, r)
    check_archives(s, r)
    for d in r.devices:
        check_order(s, r, d)
        check_states(s, r, d)
        check_log(s, r, d)
        check_pages(s, r, d)
