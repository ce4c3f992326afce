"""Answers to questions of names, for clients that look a server up: chat.example is loopback."""
import socket
import struct
import threading

DOMAIN, HOST = "chat.example", "127.0.0.1"
PLAIN, DIRECT_TLS = 5222, 5223
A, SRV, IN = 1, 33, 1
BARE, OVER_TLS = "_xmpp-client._tcp.", "_xmpps-client._tcp."
SERVICES = {BARE: PLAIN, OVER_TLS: DIRECT_TLS}
NO_SUCH_NAME = 3


def labels(name):
    return b"".join(bytes([len(label)]) + label.encode() for label in name.split(".") if label) + b"\0"


def asked(packet):
    """The name and the type that a question asks for, and where it ends."""
    at, parts = 12, []
    while packet[at]:
        parts.append(packet[at + 1:at + 1 + packet[at]].decode("ascii", "replace"))
        at += 1 + packet[at]
    return ".".join(parts).lower(), struct.unpack("!H", packet[at + 1:at + 3])[0], at + 5


def data(name, kind, services):
    """What stands there of that type, or None where there is no such name."""
    if name == DOMAIN:
        return socket.inet_aton(HOST) if kind == A else b""
    for service in services:
        if name == service + DOMAIN:
            return struct.pack("!HHH", 0, 0, SERVICES[service]) + labels(DOMAIN) if kind == SRV else b""
    return None


def answer(packet, services):
    name, kind, end = asked(packet)
    found = data(name, kind, services)
    flags = 0x8580 | (NO_SUCH_NAME if found is None else 0)
    head = packet[:2] + struct.pack("!HHHHH", flags, 1, 1 if found else 0, 0, 0) + packet[12:end]
    return head + (b"\xc0\x0c" + struct.pack("!HHIH", kind, IN, 1, len(found)) + found if found else b"")


class Names:
    """Answers on the port of names, until the process ends. `services` are those that the domain tells."""

    def __init__(self):
        self.services = list(SERVICES)
        self.link = socket.socket(socket.AF_INET, socket.SOCK_DGRAM)
        self.link.bind((HOST, 53))
        threading.Thread(target=self.serve, daemon=True).start()

    def serve(self):
        while True:
            packet, peer = self.link.recvfrom(4096)
            try:
                self.link.sendto(answer(packet, self.services), peer)
            except (IndexError, struct.error):
                continue
