"""What is tried with a client, and who failed where something does not work, by what the wiretap has."""
import re
import time

import sockets
import wire
from room import ALICE, BOB, within

FIRST, AWAY, TOLD, SAID, COPIED, MEANWHILE, AFTER = ("said-first", "said-while-away", "said-to-alice", "said-by-alice",
                                                      "said-by-the-pad", "said-in-the-cut", "said-after-the-cut")
# how many messages wait in the archive, and how often a client is asked to go back
BETWEEN, TIMES_BACK = 60, 30
SECONDS, SECONDS_TO_LOG_IN, SECONDS_TO_RESUME, SECONDS_HELD = sockets.ANSWER, 4 * sockets.ANSWER, 4 * sockets.ANSWER, 3
WORDS = re.compile(r"mechani|sasl|tls|encrypt|secur|authenti|login|connect", re.I)
MANAGEMENT, CARBONS, ARCHIVE = "urn:xmpp:sm:3", "urn:xmpp:carbons:2", "urn:xmpp:mam:2"


class Trial:
    """`worked` and `faults` are filled as the steps go."""

    def __init__(self, client, room):
        self.client, self.room, self.tap = client, room, room.tap
        self.worked, self.faults = [], []

    def run(self):
        self.room.bob.say(ALICE, FIRST)
        # a client may tell messages apart by their seconds
        time.sleep(1.5)
        for number in range(BETWEEN):
            self.room.bob.say(ALICE, f"between {number}")
        time.sleep(1.5)
        self.room.bob.say(ALICE, AWAY)
        if not within(SECONDS_TO_LOG_IN, lambda: AWAY in self.room.pad.text()):
            raise ValueError("what bob says does not come to the pad")
        self.client.begin(self.room)
        if not self.logs_in():
            return
        if getattr(self.client, "only_sends", False):
            self.sends()
        else:
            for step in (self.receives, self.sends, self.copies, self.catches_up, self.resumes, self.goes_back):
                step()
        self.refused()

    def shows(self, text, seconds=SECONDS):
        return within(seconds, lambda: text in self.client.text())

    def fault(self, what, who, why):
        self.faults.append(f"{what} ({who}: {why})")

    def logs_in(self):
        if within(SECONDS_TO_LOG_IN, lambda: wire.bound(self.tap.down()) or self.lost()):
            # a client may have another way in
            if within(SECONDS, lambda: wire.bound(self.tap.down())):
                self.worked.append(f"login by {wire.wants_mechanism(self.tap.up())}{' over TLS' if self.client.over_tls else ''}")
                within(SECONDS, lambda: "<presence" in self.tap.up())
                return True
        self.fault("login", *self.why_no_login())
        return False

    def lost(self):
        """Whether the login is over already."""
        return wire.login_failure(self.tap.down()) or wire.stream_error(self.tap.down()) or wire.stream_error(self.tap.up())

    def why_no_login(self):
        up, down = self.tap.up(), self.tap.down()
        says, mechanism = self.last_words(), wire.wants_mechanism(up)
        failed = wire.login_failure(down) or wire.stream_error(down)
        if mechanism and failed:
            return "server", f"{failed} to {mechanism}{says}"
        if not self.tap.count():
            return "client", f"it never comes as far as the server{says}"
        if not wire.offered(down):
            return "client", f"it opens no stream{says}"
        if wire.stream_error(up):
            return "client", f"it ends the stream with {wire.stream_error(up)}{says}"
        if not mechanism:
            beside = "over TLS" if self.client.over_tls else "without STARTTLS"
            return "nothing in common", f"it takes nothing of what is offered, {', '.join(wire.offered(down))} {beside}{says}"
        return "client", f"it does not go on after {mechanism}{says}"

    def last_words(self):
        """What the client itself says of it."""
        lines = [" ".join(line.split()) for line in self.client.words().split("\n")]
        lines = [line for line in lines if WORDS.search(line) and not line.startswith("<")]
        return f'; its words: "{lines[-1][:160]}"' if lines else ""

    def sends(self):
        if not getattr(self.client, "says", True):
            self.faults.append("sending is not tried")
            return
        self.client.say(SAID)
        if within(SECONDS, lambda: SAID in self.room.bob.text()):
            self.worked.append("sends")
        elif SAID in self.tap.up():
            self.fault("sending", "server", "it took the message, and bob has it not")
        else:
            self.fault("sending", "client", "the message never came to the wire")

    def receives(self):
        self.room.bob.say(ALICE, TOLD)
        self.judge("receives", "receiving", TOLD)

    def judge(self, works, fails, text):
        """Whether the client shows a text, and else who lost it."""
        if self.shows(text):
            self.worked.append(works)
        elif text in self.tap.down():
            self.fault(fails, "client", "it was handed over, and is not shown")
        else:
            self.fault(fails, "server", "it was not handed over")

    def copies(self):
        """What another device of the account says."""
        if CARBONS not in "".join(wire.requests(self.tap.up()).values()):
            self.fault("carbons", "client", "it asks for none")
            return
        self.room.pad.say(BOB, COPIED)
        self.judge("carbons", "carbons", COPIED)

    def asks(self):
        """Whether it asked for a part of the archive."""
        return ARCHIVE in wire.requests(self.tap.up()).values()

    def catches_up(self):
        """The newest of what came while the client was not there."""
        self.client.catch_up()
        shown = self.shows(AWAY)
        if not self.asks():
            self.fault("history", "client", "it asks for none")
        elif shown:
            self.worked.append("history")
            self.asked_twice()
        else:
            self.judge("history", "history", AWAY)

    def asked_twice(self):
        """Whether it asked for what it had."""
        came = self.tap.down().count(AWAY)
        if came > 1:
            asked = list(wire.requests(self.tap.up()).values()).count(ARCHIVE)
            self.fault("history", "client", f"in {asked} requests it asks for the same {came} times")

    def goes_back(self):
        """The oldest of it, further back than one page."""
        if not self.asks():
            return
        for _ in range(TIMES_BACK):
            self.client.go_back()
            if self.shows(FIRST, 1):
                self.worked.append(f"back to the first of {BETWEEN + 2}")
                return
        who, why = ("client", "it was handed over, and is not shown") if FIRST in self.tap.down() else ("client", "it asks for no older page")
        self.fault("back to the first", who, why)

    def resumes(self):
        """A cut without a word, and something said in it."""
        up = self.tap.up()
        enabled = re.search(rf"<enable\b[^>]*{MANAGEMENT}[^>]*>", up)
        resumable = enabled and re.search(r"resume=['\"](true|1)", enabled[0])
        before = self.tap.count()
        self.tap.cut()
        self.room.bob.say(ALICE, MEANWHILE)
        time.sleep(SECONDS_HELD)
        self.tap.held = False
        back = within(SECONDS_TO_RESUME, lambda: self.is_back(before))
        if not resumable:
            self.fault("resumption", "client", ("it enables none" if enabled else "no stream management") + (", it dials again" if back else ""))
        elif not back:
            self.fault("resumption", "client", "it does not come back" if self.tap.count() == before else "it comes back and gets no session")
        else:
            self.judge_resumption(before)
        if back:
            self.judge_rest(before)

    def judge_rest(self, before):
        """What was said in the cut, and behind it."""
        if self.shows(MEANWHILE):
            self.worked.append("gets what was said in a cut")
        elif "<resumed" in self.tap.down(before) or MEANWHILE in self.tap.down():
            self.judge("", "what was said in a cut", MEANWHILE)
        else:
            self.fault("what was said in a cut", "client", "it neither resumes nor asks the archive for it")
        self.room.bob.say(ALICE, AFTER)
        self.judge("goes on", "going on after a cut", AFTER)

    def is_back(self, before):
        down = self.tap.down(before)
        return "<resumed" in down or wire.bound(down)

    def judge_resumption(self, before):
        up, down = self.tap.up(before), self.tap.down(before)
        if "<resumed" in down:
            self.worked.append("resumption")
        elif "<resume" not in up:
            self.fault("resumption", "client", "it binds anew")
        else:
            self.fault("resumption", "server", "it refuses it")

    def refused(self):
        told = wire.refusals(self.tap.up(), self.tap.down())
        if told:
            self.faults.append("refused by the server: " + ", ".join(f"{what} {why}" for what, why in told))

    def told(self):
        return "works: " + (", ".join(self.worked) or "nothing") + (". fault: " + "; ".join(self.faults) if self.faults else "")

    def fair(self):
        """Whether the client is in, or does not want what the server has."""
        return wire.wants_mechanism(self.tap.up()) != "SCRAM-SHA-256" or wire.bound(self.tap.down())
