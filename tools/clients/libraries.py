"""Clients that are libraries, each with a small program over it."""
import os
import shutil
import subprocess

import sockets
from names import DIRECT_TLS, DOMAIN, HOST, PLAIN
from room import ALICE, BOB, DEBIAN_PYTHON, Driven, Person, Program, within

SECONDS_TO_COMPILE = 120


class Slixmpp(Driven):
    """The same program as bob's."""
    name, packages, over_tls = "slixmpp", ["python3-slixmpp"], False

    def begin(self, room):
        self.run = Person(PLAIN, "alice", "phone", room.folder)

    def say(self, text):
        self.run.say(BOB, text)

    def catch_up(self):
        self.run.tell("history")
        within(sockets.ANSWER, lambda: "archive is read" in self.run.text())

    def go_back(self):
        """All is asked for at once."""


class ByLines(Slixmpp):
    """A program that takes the same lines, without a history."""
    program, flags = None, []

    def begin(self, room):
        port = DIRECT_TLS if self.over_tls else PLAIN
        self.run = Program([DEBIAN_PYTHON, os.path.join(room.folder, self.program), str(port), *self.flags], room.folder)

    def say(self, text):
        self.run.tell(f"say {BOB} {text}")

    def catch_up(self):
        pass


class Nbxmpp(ByLines):
    name, packages = "nbxmpp", ["python3-nbxmpp", "gir1.2-soup-3.0"]
    program, flags = "nbxmpp_client.py", ["plain"]


class NbxmppOverTls(Nbxmpp):
    name, over_tls, flags = "nbxmpp over TLS", True, ["direct-tls"]


class Aioxmpp(ByLines):
    name, packages, program = "aioxmpp", ["python3-aioxmpp"], "aioxmpp_client.py"


class Libstrophe(Slixmpp):
    """The example `bot` of its package, which answers each message."""
    name, packages = "libstrophe (its bot.c)", ["libstrophe-dev", "gcc", "libc6-dev"]
    SOURCE = "/usr/share/doc/libstrophe-dev/examples/bot.c"

    def begin(self, room):
        made = os.path.join(room.folder, "bot")
        subprocess.run(["gcc", "-o", made, self.SOURCE, "-lstrophe"], check=True, capture_output=True, timeout=SECONDS_TO_COMPILE)
        self.room = room
        self.run = Program([made, "--disable-tls", "--jid", ALICE + "/phone", "--pass", "pw-alice", HOST, str(PLAIN)], room.folder)

    def say(self, text):
        """It says what it is told, and more."""
        self.room.bob.say(ALICE + "/phone", text)

    def catch_up(self):
        pass


class OneShot(Driven):
    """A program that sends one message and ends."""
    over_tls, only_sends = True, True

    def begin(self, room):
        self.room = room
        self.say("a first word")

    def say(self, text):
        self.run = Program(self.command(self.room), self.room.folder)
        self.run.tell(text)
        self.run.run.stdin.close()

    def catch_up(self):
        pass


class GoSendxmpp(OneShot):
    name, packages = "go-sendxmpp", ["go-sendxmpp"]

    def command(self, _room):
        return [shutil.which("go-sendxmpp"), "-d", "-u", ALICE, "-p", "pw-alice", "-j", f"{DOMAIN}:{DIRECT_TLS}", "-t", "-n", BOB]


class Sendxmpp(OneShot):
    name, packages, over_tls = "sendxmpp", ["sendxmpp"], False

    def command(self, _room):
        return [shutil.which("sendxmpp"), "-v", "-u", "alice", "-j", f"{DOMAIN}:{PLAIN}", "-p", "pw-alice", BOB]
