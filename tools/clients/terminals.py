"""Clients in a terminal."""
import time

import sockets
import wire
from names import DIRECT_TLS, HOST, PLAIN
from room import ALICE, BOB, Driven, Screen, within

START = 2 * sockets.ANSWER


class Profanity(Driven):
    name, packages, over_tls = "profanity", ["profanity"], False
    ACCOUNT = (f"[alice]\nenabled=true\njid={ALICE}\nresource=phone\npassword=pw-alice\nserver={HOST}\nport=%s\ntls.policy=%s\n"
               "auth.policy=default\n")

    def begin(self, room):
        port, policy = (DIRECT_TLS, "legacy") if self.over_tls else (PLAIN, "disable")
        room.write(".local/share/profanity/accounts", self.ACCOUNT % (port, policy))
        self.run = Screen(["profanity"], room.folder)
        within(START, lambda: "Profanity" in self.run.text())
        for line in ("/carbons on", "/mam on", "/reconnect 2", "/autoping set 5", "/connect alice"):
            self.run.tell(line)
        if self.over_tls:
            within(START, lambda: "/tls" in self.run.text())
            self.run.tell("/tls always")
        within(START, lambda: wire.bound(room.tap.down()))
        time.sleep(1)
        self.run.tell(f"/msg {BOB}")

    def say(self, text):
        self.run.tell(text)

    def catch_up(self):
        """It asks by itself."""

    def go_back(self):
        self.run.key("PageUp")


class ProfanityOverTls(Profanity):
    name, over_tls = "profanity over TLS", True


class Poezio(Profanity):
    name, packages, over_tls = "poezio", ["poezio"], False
    SETTINGS = (f"[Poezio]\njid = {ALICE}/phone\npassword = pw-alice\ncustom_host = {HOST}\ncustom_port = {PLAIN}\n"
                "force_encryption = false\nauto_reconnect = true\nenable_carbons = true\nenable_smacks = true\n")

    def begin(self, room):
        room.write(".config/poezio/poezio.cfg", self.SETTINGS)
        self.run = Screen(["poezio"], room.folder)
        within(START, lambda: "Your JID is" in self.run.text())
        # its list of contacts takes a slash that comes alone
        self.run.key("/")
        time.sleep(1)
        self.run.tell(f"message {BOB}")
        time.sleep(1)


class Mcabber(Profanity):
    name, packages = "mcabber", ["mcabber"]
    SETTINGS = f"set jid = {ALICE}\nset password = pw-alice\nset server = {HOST}\nset port = {PLAIN}\nset tls = 0\nset resource = phone\n"

    def begin(self, room):
        room.write(".mcabber/mcabberrc", self.SETTINGS)
        self.run = Screen(["mcabber"], room.folder)
        within(START, lambda: room.tap.count())

    def say(self, text):
        self.run.tell(f"/say_to {BOB} {text}")


class Finch(Profanity):
    name, packages = "finch (libpurple)", ["finch"]
    SETTINGS = f"""<?xml version='1.0' encoding='UTF-8' ?>
<account version='1.0'><account><protocol>prpl-jabber</protocol><name>{ALICE}/phone</name><password>pw-alice</password>
<settings><setting name='connect_server' type='string'>{HOST}</setting><setting name='port' type='int'>{PLAIN}</setting>
<setting name='connection_security' type='string'>opportunistic_tls</setting>
<setting name='auth_plain_in_clear' type='bool'>1</setting></settings>
<settings ui='gnt-purple'><setting name='auto-login' type='bool'>1</setting></settings></account></account>
"""

    def begin(self, room):
        room.write(".purple/accounts.xml", self.SETTINGS)
        self.run = Screen(["finch"], room.folder)
        within(START, lambda: room.tap.count())

    def say(self, text):
        """It has a window to write in once bob has written: the second."""
        self.run.key("M-2")
        time.sleep(1)
        self.run.tell(text)
