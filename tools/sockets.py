"""Connections on loopback: a program that serves, a recorder between it and its clients, and a plain client."""
import base64
import os
import random
import re
import socket
import subprocess
import tempfile
import threading
import time

import journals

TOP = os.path.dirname(os.path.dirname(os.path.abspath(__file__)))
SHARED = os.environ.get("SHARED_TOOLS", os.path.join(TOP, "../shared/tools"))
BASELINE = os.environ.get("BASELINE", os.path.join(SHARED, "baseline"))
HOST = "127.0.0.1"
SECONDS = 120
# how long a tool waits for an answer of a server that is not busy
ANSWER = int(os.environ.get("SECONDS_TO_ANSWER", "20"))
TICKS = os.sysconf("SC_CLK_TCK")
PING = f"<iq type='get' id='{{}}' to='{journals.DOMAIN}'><ping xmlns='urn:xmpp:ping'/></iq>"


def free_port():
    """A port that nobody listens on, below those that the system gives to those who dial."""
    while True:
        port = random.randrange(20_000, 30_000)
        with socket.socket() as link:
            try:
                link.bind((HOST, port))
                return port
            except OSError:
                continue


def listens(port):
    """Whether a process of this machine listens on a port."""
    with open("/proc/net/tcp", encoding="ascii") as file:
        return any(words[1].endswith(f":{port:04X}") and words[3] == "0A" for words in map(str.split, file))


def dialed(port):
    link = socket.create_connection((HOST, port), SECONDS)
    link.setsockopt(socket.IPPROTO_TCP, socket.TCP_NODELAY, 1)
    return link


def hand_on(source, sink, kept, change):
    """Hands on what comes from one link to another, and keeps it, also where the other takes no more."""
    while True:
        try:
            piece = source.recv(65_536)
        except OSError:
            piece = b""
        if not piece:
            break
        kept.extend(piece)
        try:
            sink.sendall(change(piece))
        except OSError:
            pass
    try:
        sink.shutdown(socket.SHUT_WR)
    except OSError:
        pass


class Recorder:
    """Listens on loopback, hands each connection on to a port, and keeps the bytes of both directions. What the server says
    is changed before the client has it where `change` does so."""

    def __init__(self, to, change=bytes):
        self.up, self.down, self.threads = [], [], []
        self.to, self.change, self.lock = to, change, threading.Lock()
        self.listener = socket.create_server((HOST, 0))
        self.port = self.listener.getsockname()[1]
        threading.Thread(target=self.accept, daemon=True).start()

    def accept(self):
        while True:
            try:
                client = self.listener.accept()[0]
                with self.lock:
                    self.hand_on_both(client, dialed(self.to))
            except OSError:
                return

    def hand_on_both(self, client, server):
        client.setsockopt(socket.IPPROTO_TCP, socket.TCP_NODELAY, 1)
        self.up.append(bytearray())
        self.down.append(bytearray())
        for args in ((client, server, self.up[-1], bytes), (server, client, self.down[-1], self.change)):
            self.threads.append(threading.Thread(target=hand_on, args=args, daemon=True))
            self.threads[-1].start()

    def ended(self):
        """Waits until all is handed on of each connection that the server has taken."""
        self.listener.close()
        with self.lock:
            threads = list(self.threads)
        for thread in threads:
            thread.join(SECONDS)


def most_memory(pid):
    """The most bytes that a process had in memory so far. What `wait` tells is no less than what this process has, since the
    other one begins as a copy of it."""
    with open(f"/proc/{pid}/status", encoding="ascii") as file:
        return next((int(line.split()[1]) * 1024 for line in file if line.startswith("VmHWM:")), 0)


class Serving:
    """`serve` of a program for so many connections, which dial `port`, where a recorder listens. `direct` is its own port.
    Once it has ended, `memory` is the most that it had, in bytes."""

    def __init__(self, program, accounts, count, change=bytes):
        self.out, self.direct, self.memory = tempfile.TemporaryFile(), free_port(), 0
        with tempfile.TemporaryFile() as source:
            source.write(accounts.encode())
            source.seek(0)
            self.run = subprocess.Popen([program, "serve", str(self.direct), str(count)], stdin=source, stdout=self.out)
        end = time.monotonic() + SECONDS
        while not listens(self.direct):
            if self.run.poll() is not None or time.monotonic() > end:
                self.run.kill()
                raise ValueError(f"{os.path.basename(program)} serve doesn't listen, status {self.run.wait()}")
            time.sleep(0.01)
        self.recorder = Recorder(self.direct, change)
        self.port = self.recorder.port

    def __enter__(self):
        return self

    def __exit__(self, *_):
        if self.run.returncode is None:
            self.run.kill()
            self.run.wait()

    def times(self):
        """The processor's seconds that it took so far, user and system, to a hundredth."""
        with open(f"/proc/{self.run.pid}/stat", encoding="ascii") as file:
            user, system = file.read().rsplit(")", 1)[1].split()[11:13]
        return int(user) / TICKS, int(system) / TICKS

    def ended(self):
        """Its status, what it wrote, and the processor's time that it took, user and system, once it has ended."""
        end, pid = time.monotonic() + SECONDS, 0
        while not pid:
            if time.monotonic() > end:
                self.run.kill()
            self.memory = max(self.memory, most_memory(self.run.pid))
            time.sleep(0.001)
            pid, status, usage = os.wait4(self.run.pid, os.WNOHANG)
        self.run.returncode = os.waitstatus_to_exitcode(status)
        self.recorder.ended()
        self.out.seek(0)
        return self.run.returncode, self.out.read().decode(), (usage.ru_utime, usage.ru_stime)


class Client:
    """A plain client: it logs in, and then says what it is told to. `heard` is all that it was told. Where it is given a
    connection, it does not dial."""

    def __init__(self, port, account, password, changed=0, link=None):
        self.link, self.got, self.heard, self.account = link or dialed(port), "", bytearray(), account
        self.say(journals.STREAM + journals.auth(account, "abcdef"))
        challenge = self.until("</challenge>")
        both = base64.b64decode(re.search(r">([^<>]*)</challenge>", challenge)[1]).decode().split(",")[0][2:]
        self.say(journals.answer(account, password, "abcdef", both, changed))
        if not changed:
            self.until("</success>")
            self.say(journals.STREAM)
            self.until("</stream:features>")

    def say(self, text):
        self.link.sendall(text.encode())

    def hear(self):
        piece = self.link.recv(65_536)
        self.heard += piece
        return piece

    def until(self, end, count=1):
        """What comes up to that end, for the count-th time."""
        while self.got.count(end) < count:
            piece = self.hear()
            if not piece:
                raise ValueError(f"the connection ended before {end}")
            self.got += piece.decode()
        parts = self.got.split(end, count)
        self.got = parts.pop()
        return end.join(parts) + end

    def bind(self, resource):
        self.say(journals.bind(resource))
        self.until("</iq>")

    def appear(self, resource):
        """Binds, and is available once the server has said so."""
        self.bind(resource)
        self.say("<presence/>" + PING.format("there"))
        self.until("id='there'")
        self.until(">")

    def leave(self):
        """Closes the stream, and reads what comes until the other end has closed the connection."""
        self.say("</stream:stream>")
        while self.hear():
            pass
        self.link.close()
