"""Clients with windows, on a screen that nobody sees. What such a client was told counts as shown once it keeps it."""
import base64
import itertools
import os
import sqlite3
import subprocess
import time

import sockets
from names import DIRECT_TLS, HOST, PLAIN
from room import ALICE, BOB, DEBIAN_PYTHON, NOBODY, Program, environment, within

START = 4 * sockets.ANSWER
BUSES = itertools.count()
# of a file of a client's
MOST_READ = 50_000_000


class Window:
    """A program with its display and its bus. Its text is all that stands in the files of its home."""

    def __init__(self, words, home):
        self.home = home
        self.screen = subprocess.Popen(["Xvfb", "-displayfd", "1", "-screen", "0", "1280x900x24", "-nolisten", "tcp"],
                                       stdout=subprocess.PIPE, stderr=subprocess.DEVNULL)
        self.display = ":" + self.screen.stdout.readline().decode().strip()
        place = os.path.join(home, f"bus-{next(BUSES)}")
        self.around = {"DISPLAY": self.display, "DBUS_SESSION_BUS_ADDRESS": f"unix:path={place}", "NO_AT_BRIDGE": "1", "QT_QPA_PLATFORM": "xcb",
                       # loopback counts as a network
                       "GIO_USE_NETWORK_MONITOR": "base"}
        self.bus = Program(["dbus-daemon", "--session", f"--address=unix:path={place}", "--nofork", "--nopidfile", "--print-address"], home)
        within(START, lambda: "unix:" in self.bus.text())
        self.program = Program(words, home, **self.around)

    def do(self, *words):
        """Something beside it, on its display and its bus."""
        return subprocess.run(words, env=environment(self.home, **self.around), user=NOBODY.pw_uid, group=NOBODY.pw_gid,
                              extra_groups=[], capture_output=True, text=True, timeout=60, check=False).stdout

    def text(self):
        kept = [self.program.text()]
        for folder, inner, names in os.walk(self.home):
            # there stand pictures and fonts
            inner[:] = [name for name in inner if name != ".cache"]
            for name in names:
                try:
                    with open(os.path.join(folder, name), "rb") as file:
                        kept.append(file.read(MOST_READ).decode(errors="replace"))
                except OSError:
                    continue
        return "\n".join(kept)

    def stop(self):
        for it in (self.program, self.bus):
            it.stop()
        self.screen.terminate()
        self.screen.wait()


class Gajim:
    name, packages, over_tls = "gajim", ["gajim", "xvfb", "dbus"], True
    ACCOUNT = """
import json, os, sqlite3
from gajim.common import settings
os.makedirs(".config/gajim", exist_ok=True)
kept = sqlite3.connect(".config/gajim/settings.sqlite")
kept.executescript(settings.CREATE_SQL)
kept.execute("UPDATE settings SET settings = ? WHERE name = 'app'", [json.dumps({"use_keyring": False, "remote_control": True})])
account = {"name": "alice", "hostname": "chat.example", "account_label": "alice", "password": "pw-alice", "savepass": True,
           "active": True, "autoconnect": True, "resource": "phone", "use_custom_host": True, "custom_host": "127.0.0.1",
           "custom_port": %d, "custom_type": "DIRECT TLS"}
every = json.dumps({"account": account, "contact": {}, "group_chat": {}})
kept.execute("INSERT INTO account_settings(account, settings) VALUES ('alice', ?)", [every])
kept.commit()
"""

    def begin(self, room):
        room.write("account.py", self.ACCOUNT % DIRECT_TLS)
        made = Program([DEBIAN_PYTHON, "account.py"], room.folder)
        made.run.wait(START)
        self.run = Window(["gajim"], room.folder)

    def say(self, text):
        self.run.do("gajim-remote", "send_chat_message", BOB, text, "alice")

    def catch_up(self):
        """It asks by itself."""

    def go_back(self):
        """It asks for all by itself."""

    def text(self):
        return self.run.text()

    def words(self):
        return self.run.program.text()

    def stop(self):
        self.run.stop()


class Dino(Gajim):
    """It has no setting for a host: it asks for records of the domain. Nothing here makes it or those below send."""
    says = False
    name, packages = "dino", ["dino-im", "xvfb", "dbus"]
    KEPT = ".local/share/dino/dino.db"

    def begin(self, room):
        place = os.path.join(room.folder, self.KEPT)
        first = Window(["dino-im"], room.folder)
        within(START, lambda: os.path.exists(place))
        time.sleep(5)
        first.stop()
        with sqlite3.connect(place) as kept:
            kept.execute("INSERT INTO account(bare_jid, resourcepart, password, alias, enabled) VALUES (?, 'phone', 'pw-alice', '', 1)",
                         [ALICE])
        kept.close()
        room.own()
        self.run = Window(["dino-im"], room.folder)


class Kaidan(Dino):
    name, packages, over_tls = "kaidan", ["kaidan", "xvfb", "dbus"], False
    SETTINGS = f"[auth]\njid={ALICE}\npassword=%s\nonline=true\nhost={HOST}\nport=%s\n"

    def begin(self, room):
        word = base64.b64encode(b"pw-alice").decode()
        room.write(".config/kaidan/kaidan.conf", self.SETTINGS % (word, PLAIN))
        self.run = Window(["kaidan"], room.folder)


class Psi(Dino):
    name, packages, over_tls = "psi", ["psi", "xvfb", "dbus"], False
    ACCOUNTS = f"""<?xml version="1.0" encoding="utf-8"?>
<!DOCTYPE accounts>
<accounts xmlns="http://psi-im.org/options" version="1.5"><accounts><m0><name type="QString">alice</name><id type="QString">a1</id>
<enabled type="bool">true</enabled><auto type="bool">true</auto><jid type="QString">{ALICE}</jid>
<custom-auth><use type="bool">false</use></custom-auth><password type="QString">%s</password><use-host type="bool">true</use-host>
<host type="QString">{HOST}</host><port type="int">{PLAIN}</port><ssl type="QString">no</ssl><allow-plain type="QString">always</allow-plain>
<resource type="QString">phone</resource><priority type="int">5</priority><reconn type="bool">true</reconn>
<enable-sm type="bool">true</enable-sm></m0></accounts></accounts>
"""

    def begin(self, room):
        # it keeps a password under the address, character by character
        word = "".join(f"{ord(one) ^ ord(other):04x}" for one, other in zip("pw-alice", ALICE))
        for folder in (".config", ".local/share"):
            room.write(f"{folder}/psi/profiles/default/accounts.xml", self.ACCOUNTS % word)
        self.run = Window(["psi", "--profile=default"], room.folder)
