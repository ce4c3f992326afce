"""A wiretap between clients and the server: it keeps what both say, can cut, and tells what the bytes show."""
import re
import socket
import threading

import sockets
from names import HOST, PLAIN

IQ = re.compile(r"<iq\b([^>]*?)(?:/>|>(.*?)</iq>)", re.S)
CHILD = re.compile(r"\s*<([\w:.-]+)([^>]*)>")
CONDITION = re.compile(r"<error\b.*?<([a-z-]+) xmlns=['\"]urn:ietf:params:xml:ns:xmpp-stanzas", re.S)


def attribute(tag, name):
    found = re.search(rf"\b{name}=(['\"])(.*?)\1", tag)
    return found[2] if found else None


class Tap:
    """Listens where clients dial, and hands each connection on to a port. While `held`, it ends each at once."""

    def __init__(self, to):
        self.to, self.held, self.links, self.ups, self.downs = to, False, [], [], []
        self.listener = socket.create_server((HOST, PLAIN))
        threading.Thread(target=self.accept, daemon=True).start()

    def accept(self):
        while True:
            try:
                client = self.listener.accept()[0]
            except OSError:
                return
            if self.held:
                client.close()
                continue
            server = sockets.dialed(self.to)
            self.links += [client, server]
            self.ups.append(bytearray())
            self.downs.append(bytearray())
            for args in ((client, server, self.ups[-1], bytes), (server, client, self.downs[-1], bytes)):
                threading.Thread(target=sockets.hand_on, args=args, daemon=True).start()

    def cut(self):
        """Ends all connections without a word, and lets none in until it is no longer held."""
        self.held = True
        for link in self.links:
            try:
                link.shutdown(socket.SHUT_RDWR)
            except OSError:
                pass
        self.links.clear()

    def close(self):
        self.cut()
        # it wakes the thread that waits for the next one, which holds the port
        self.listener.shutdown(socket.SHUT_RDWR)
        self.listener.close()

    def up(self, since=0):
        """What clients said, on the connections from that one on."""
        return "".join(bytes(it).decode(errors="replace") for it in self.ups[since:])

    def down(self, since=0):
        return "".join(bytes(it).decode(errors="replace") for it in self.downs[since:])

    def count(self):
        return len(self.ups)


def bound(down):
    return "<jid>" in down


def wants_mechanism(up):
    found = re.search(r"<auth\b[^>]*>", up)
    return attribute(found[0], "mechanism") if found else None


def offered(down):
    return sorted(set(re.findall(r"<mechanism>([^<]*)<", down)))


def stream_error(text):
    found = re.search(r"<(?:stream:)?error\b[^>]*>\s*<([a-z-]+)[^>]*xmpp-streams", text)
    return found[1] if found else None


def login_failure(down):
    found = re.search(r"<failure\b[^>]*>\s*<([a-z-]+)", down)
    return found[1] if found else None


def requests(up):
    """What was asked by each id: the namespace of the request's child, or its name."""
    asked = {}
    for tag, inner in IQ.findall(up):
        child = CHILD.match(inner or "")
        if attribute(tag, "type") in ("get", "set") and child:
            asked[attribute(tag, "id")] = attribute(child[2], "xmlns") or child[1]
    return asked


def refusals(up, down):
    """Which requests the server refused, with its condition, each once, as they came."""
    asked, told = requests(up), {}
    for tag, inner in IQ.findall(down):
        if attribute(tag, "type") == "error":
            condition = CONDITION.search(inner or "")
            told[asked.get(attribute(tag, "id"), "?"), condition[1] if condition else "?"] = None
    return list(told)
