"""A room in which a client is tried: a network of its own, a server behind a wiretap, and two people beside it."""
import fcntl
import os
import pwd
import shutil
import socket
import struct
import subprocess
import tempfile
import threading
import time

import sockets
from names import DIRECT_TLS, DOMAIN, HOST, Names
from wire import Tap

HERE = os.path.dirname(os.path.abspath(__file__))
DEBIAN_PYTHON = "/usr/bin/python3"
ACCOUNTS = f"xmpp-accounts 1\ndomain {DOMAIN}\naccount alice pw-alice\naccount bob pw-bob\n"
CONNECTIONS = 200
ALICE, BOB = f"alice@{DOMAIN}", f"bob@{DOMAIN}"
# some clients refuse to be run by root
NOBODY = pwd.getpwnam("nobody")
SIOCSIFFLAGS, SIOCSIFADDR, IFF_UP = 0x8914, 0x8916, 1
# of loopback too: where it has no other than 127.0.0.1, clients that ask for what the machine can reach find no names
BESIDE = "192.0.2.1"
WIDTH, HEIGHT = "110", "32"


def within(seconds, what):
    """Whether it comes true in that time."""
    end = time.monotonic() + seconds
    while not what():
        if time.monotonic() > end:
            return False
        time.sleep(0.25)
    return True


def enter_network():
    """Loopback comes up, and names lead to it: files of names are bound over those of the system, for this process alone."""
    with socket.socket() as link:
        fcntl.ioctl(link, SIOCSIFFLAGS, struct.pack("16sh14x", b"lo", IFF_UP))
        fcntl.ioctl(link, SIOCSIFADDR, struct.pack("16sHH4s8x", b"lo:1", socket.AF_INET, 0, socket.inet_aton(BESIDE)))
    folder = tempfile.mkdtemp()
    for place, text in (("/etc/hosts", f"{HOST} localhost {DOMAIN}\n"), ("/etc/resolv.conf", f"nameserver {HOST}\n")):
        own = os.path.join(folder, os.path.basename(place))
        with open(own, "w", encoding="ascii") as file:
            file.write(text)
        os.chmod(own, 0o644)
        subprocess.run(["mount", "--bind", own, place], check=True)
    os.chmod(folder, 0o755)
    return Names()


class Program:
    """A program that nobody's account runs in a home of its own. `said` is what it wrote so far."""

    def __init__(self, words, home, **more):
        self.said, self.lock = "", threading.Lock()
        self.run = subprocess.Popen(words, stdin=subprocess.PIPE, stdout=subprocess.PIPE, stderr=subprocess.STDOUT, cwd=home,
                                    env=environment(home, **more), user=NOBODY.pw_uid, group=NOBODY.pw_gid, extra_groups=[])
        threading.Thread(target=self.listen, daemon=True).start()

    def listen(self):
        while piece := os.read(self.run.stdout.fileno(), 65_536):
            with self.lock:
                self.said += piece.decode(errors="replace")

    def tell(self, line):
        try:
            self.run.stdin.write(line.encode() + b"\n")
            self.run.stdin.flush()
        except OSError:
            pass

    def text(self):
        return self.said

    def stop(self):
        self.run.kill()
        self.run.wait()


class Screen:
    """A program in a terminal, by tmux. What stood on its screens so far is kept."""

    def __init__(self, words, home, **more):
        self.home, self.env, self.shown = home, environment(home, TERM="xterm-256color", **more), ""
        self.tmux("new-session", "-d", "-x", WIDTH, "-y", HEIGHT, *words)

    def tmux(self, *words):
        done = subprocess.run(["tmux", "-f", "/dev/null", "-S", os.path.join(self.home, "tmux"), *words], env=self.env, cwd=self.home,
                              user=NOBODY.pw_uid, group=NOBODY.pw_gid, extra_groups=[], capture_output=True, text=True, timeout=20,
                              check=False)
        return done.stdout

    def tell(self, line):
        self.tmux("send-keys", "-l", line)
        time.sleep(0.3)
        self.tmux("send-keys", "Enter")

    def key(self, *names):
        self.tmux("send-keys", *names)

    def text(self):
        return self.tmux("capture-pane", "-p")

    def stop(self):
        self.tmux("kill-server")


def environment(home, **more):
    """What a program has around it: nothing of the caller's."""
    return {"HOME": home, "PATH": "/usr/local/bin:/usr/bin:/bin:/usr/games", "LANG": "C.UTF-8", "LC_ALL": "C.UTF-8",
            "SHELL": "/bin/sh", "XDG_RUNTIME_DIR": home, "PYTHONUNBUFFERED": "1", **more}


class Person(Program):
    """slixmpp, driven by lines."""

    def __init__(self, port, account, resource, home):
        super().__init__([DEBIAN_PYTHON, os.path.join(home, "slixmpp_client.py"), str(port), account, resource], home)
        if not within(4 * sockets.ANSWER, lambda: "\nin " in "\n" + self.said):
            raise ValueError(f"{account}'s slixmpp does not log in: {self.said[-300:]}")

    def say(self, to, text):
        self.tell(f"say {to} {text}")


class Driven:
    """A client of which all that it shows is what one program or screen shows."""
    run = None

    def text(self):
        return self.run.text()

    def words(self):
        return self.run.text()

    def stop(self):
        self.run.stop()


class Room:
    """A server, a wiretap before it, a front for TLS before that where it is installed; bob at a desk and alice's pad."""

    def __init__(self, program):
        self.folder = tempfile.mkdtemp(prefix="client-")
        for name in os.listdir(HERE):
            if name.endswith(("_client.py", ".c")):
                shutil.copy(os.path.join(HERE, name), self.folder)
        self.server = sockets.Serving(program, ACCOUNTS, CONNECTIONS)
        self.tap, self.front = Tap(self.server.direct), None
        self.own()
        self.bob = Person(self.server.direct, "bob", "desk", self.folder)
        self.pad = Person(self.server.direct, "alice", "pad", self.folder)

    def own(self):
        """The folder is nobody's, with all in it."""
        for folder, _, names in os.walk(self.folder):
            for place in (folder, *(os.path.join(folder, name) for name in names)):
                os.chown(place, NOBODY.pw_uid, NOBODY.pw_gid)

    def write(self, place, text):
        """A file of the client's."""
        place = os.path.join(self.folder, place)
        os.makedirs(os.path.dirname(place), exist_ok=True)
        with open(place, "w", encoding="utf-8") as file:
            file.write(text)
        os.chmod(place, 0o600)
        self.own()

    def close(self):
        for it in (self.bob, self.pad):
            it.stop()
        if self.front:
            self.front.kill()
            self.front.wait()
        self.tap.close()
        self.server.__exit__()
        shutil.rmtree(self.folder, ignore_errors=True)
