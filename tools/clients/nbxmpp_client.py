"""nbxmpp, Gajim's library, driven by lines: `say TO TEXT`. What comes is told in lines too.

    nbxmpp_client.py PORT direct-tls | plain
"""
import sys

from gi.repository import GLib
from nbxmpp.client import Client
from nbxmpp.const import ConnectionProtocol, ConnectionType
from nbxmpp.protocol import Message, Presence
from nbxmpp.structs import StanzaHandler

HOST, PASSWORD = "127.0.0.1", "pw-alice"
TYPES = {"direct-tls": ConnectionType.DIRECT_TLS, "plain": ConnectionType.PLAIN}


def tell(*words):
    print(*words, flush=True)


def made(port, kind):
    client = Client(log_context="try-clients")
    client.set_domain("chat.example")
    client.set_username("alice")
    client.set_password(PASSWORD)
    client.set_resource("phone")
    client.set_custom_host(f"{HOST}:{port}", ConnectionProtocol.TCP, TYPES[kind])
    client.set_connection_types([TYPES[kind]])
    client.set_ignore_tls_errors(True)
    client.register_handler(StanzaHandler(name="message", callback=on_message))
    for name in ("connected", "resume-successful", "resume-failed", "connection-failed"):
        client.subscribe(name, on_event)
    client.subscribe("disconnected", on_disconnected)
    return client


def on_message(_client, stanza, _properties):
    if stanza.getBody():
        tell("got", stanza.getFrom(), stanza.getBody())


def on_event(client, name):
    tell(name, client.get_error() or "")
    if name == "connected":
        client.send_stanza(Presence())


def on_disconnected(client, _name):
    tell("disconnected", client.get_error() or "")
    GLib.timeout_add(1000, lambda: client.connect())


def on_line(client, source):
    line = source.readline()
    if not line:
        return False
    words = line.rstrip("\n").split(" ", 2)
    client.send_stanza(Message(to=words[1], body=words[2], typ="chat"))
    return True


def main(argv):
    client = made(int(argv[0]), argv[1])
    GLib.io_add_watch(sys.stdin, GLib.IO_IN, lambda source, _why: on_line(client, source))
    client.connect()
    GLib.MainLoop().run()


if __name__ == "__main__":
    main(sys.argv[1:])
