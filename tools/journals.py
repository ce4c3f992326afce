"""Journals of a server, made from numbers: what clients say on their connections, with logins that are right (RFC 5802),
and what is answered."""
import base64
import functools
import hashlib
import hmac

DOMAIN = "chat.example"
ITERATIONS = 4096
STREAM = (f"<stream:stream to='{DOMAIN}' version='1.0' xmlns='jabber:client' "
          "xmlns:stream='http://etherx.jabber.org/streams'>")
SASL = "urn:ietf:params:xml:ns:xmpp-sasl"
MANAGEMENT = "urn:xmpp:sm:3"

# what a server answers
HEADER = ("<?xml version='1.0'?><stream:stream from='chat.example' id='{:012x}{:016x}' version='1.0' xml:lang='en' "
          "xmlns='jabber:client' xmlns:stream='http://etherx.jabber.org/streams'>")
FEATURES = ("<stream:features><bind xmlns='urn:ietf:params:xml:ns:xmpp-bind'/><sm xmlns='urn:xmpp:sm:3'/>"
            "</stream:features>")
ENABLED = "<enabled xmlns='urn:xmpp:sm:3' id='{:016x}' max='300' resume='true'/>"

# a usual client's session behind its login: what it says, and what is answered
FULL = "alice@chat.example/gajim.ABC"
SESSION = [
    ('<?xml version="1.0"?><stream:stream to="chat.example" version="1.0" xmlns="jabber:client" '
     'xmlns:stream="http://etherx.jabber.org/streams">', [HEADER.format(0, 1), FEATURES]),
    ('<iq type="set" id="b1"><bind xmlns="urn:ietf:params:xml:ns:xmpp-bind"><resource>gajim.ABC</resource></bind></iq>',
     [f"<iq id='b1' type='result'><bind xmlns='urn:ietf:params:xml:ns:xmpp-bind'><jid>{FULL}</jid></bind></iq>"]),
    ('<iq type="set" id="s1"><session xmlns="urn:ietf:params:xml:ns:xmpp-session"/></iq>', [f"<iq id='s1' to='{FULL}' type='result'/>"]),
    ('<enable xmlns="urn:xmpp:sm:3" resume="true"/>', [ENABLED.format(1)]),
    ('<iq type="get" id="r1"><query xmlns="jabber:iq:roster"/></iq>',
     [f"<iq id='r1' to='{FULL}' type='result'><query xmlns='jabber:iq:roster'/></iq>"]),
    ('<iq type="get" id="d1" to="chat.example"><query xmlns="http://jabber.org/protocol/disco#info"/></iq>',
     [f"<iq from='chat.example' id='d1' to='{FULL}' type='result'><query xmlns='http://jabber.org/protocol/disco#info'>"
      "<identity category='server' type='im'/><feature var='http://jabber.org/protocol/disco#info'/>"
      "<feature var='http://jabber.org/protocol/disco#items'/><feature var='urn:xmpp:carbons:2'/>"
      "<feature var='urn:xmpp:mam:2'/><feature var='urn:xmpp:ping'/><feature var='urn:xmpp:sid:0'/></query></iq>"]),
    ('<iq type="set" id="c1"><enable xmlns="urn:xmpp:carbons:2"/></iq>', [f"<iq id='c1' to='{FULL}' type='result'/>"]),
    ('<presence><priority>5</priority></presence><iq type="get" id="p1" to="chat.example"><ping xmlns="urn:xmpp:ping"/></iq>',
     [f"<iq from='chat.example' id='p1' to='{FULL}' type='result'/>"]),
    ('<r xmlns="urn:xmpp:sm:3"/>', ["<a xmlns='urn:xmpp:sm:3' h='5'/>"]),
]


def mac(key, text):
    return hmac.digest(key, text, "sha256")


@functools.lru_cache(maxsize=None)
def keys(name, password):
    """The client's key, the server's key and the salt: the first 16 bytes of SHA-256 of the bare address."""
    salt = hashlib.sha256(f"{name}@{DOMAIN}".encode()).digest()[:16]
    salted = hashlib.pbkdf2_hmac("sha256", password.encode(), salt, ITERATIONS)
    return mac(salted, b"Client Key"), mac(salted, b"Server Key"), salt


def b64(data):
    return base64.b64encode(data).decode()


def server_first(name, password, both):
    """What a server says first, with the nonce of both."""
    return f"r={both},s={b64(keys(name, password)[2])},i={ITERATIONS}"


def signed(name, password, nonce, both):
    """What a client and a server sign."""
    return ",".join([f"n={name},r={nonce}", server_first(name, password, both), f"c=biws,r={both}"]).encode()


def answer(name, password, nonce, both, changed=0):
    """What a client answers to a challenge with the nonce of both. `changed` is what the proof's first byte is changed by."""
    key = keys(name, password)[0]
    signature = mac(hashlib.sha256(key).digest(), signed(name, password, nonce, both))
    proof = bytearray(a ^ b for a, b in zip(key, signature))
    proof[0] ^= changed
    return f"<response xmlns='{SASL}'>{b64((f'c=biws,r={both},p=' + b64(proof)).encode())}</response>"


def challenge(name, password, both):
    return f"<challenge xmlns='{SASL}'>{b64(server_first(name, password, both).encode())}</challenge>"


def success(name, password, nonce, both):
    signature = mac(keys(name, password)[1], signed(name, password, nonce, both))
    return f"<success xmlns='{SASL}'>{b64(('v=' + b64(signature)).encode())}</success>"


def auth(name, nonce):
    return f"<auth xmlns='{SASL}' mechanism='SCRAM-SHA-256'>{b64(f'n,,n={name},r={nonce}'.encode())}</auth>"


def login(name, password, entropy, nonce="abcdef", changed=0):
    """The bytes of a stream up to the header behind its login, for the entropy that is drawn for the connection."""
    return STREAM + auth(name, nonce) + answer(name, password, nonce, nonce + b64(entropy[:18]), changed) + STREAM


def bind(resource):
    return (f"<iq type='set' id='b'><bind xmlns='urn:ietf:params:xml:ns:xmpp-bind'>"
            f"<resource>{resource}</resource></bind></iq>")


def enable(resume):
    return f"<enable xmlns='{MANAGEMENT}' resume='{'true' if resume else 'false'}'/>"


def message(to, body, ident="", extra=""):
    attributes = f" to='{to}'" if to else ""
    attributes += f" id='{ident}'" if ident else ""
    return f"<message{attributes} type='chat'><body>{body}</body>{extra}</message>"


def outputs(told):
    """The outputs that `rerun` tells of, each with its connection: bytes, or None where the connection is shut."""
    for line in told.decode().split("\n"):
        words = line.split(" ")
        if words[0] in ("out", "shut"):
            yield int(words[1]), bytes.fromhex(words[2]) if words[0] == "out" else None


class Journal:
    """An accounts file and a journal, as `rerun` reads them."""

    def __init__(self, accounts, keep=None):
        version = 2 if keep else 1
        self.lines = [f"xmpp-accounts {version}", f"domain {DOMAIN}"]
        self.lines += [f"keep {keep}"] if keep else []
        self.lines += [f"account {name} {password}" for name, password in accounts]
        self.lines += ["%%", f"xmpp-journal {version}"]

    def connect(self, conn, moment, entropy):
        self.lines.append(f"connect {conn} {moment} {entropy.hex()}")

    def piece(self, conn, moment, text):
        """A piece that comes: text, or bytes."""
        came = text if isinstance(text, bytes) else text.encode()
        self.lines.append(f"piece {conn} {moment} {came.hex()}")

    def pieces(self, conn, moment, said, each):
        """The same bytes, so many in a piece."""
        for at in range(0, len(said), each):
            self.piece(conn, moment, said[at:at + each])

    def gone(self, conn, moment):
        self.lines.append(f"gone {conn} {moment}")

    def text(self):
        return ("\n".join(self.lines + ["end"]) + "\n").encode()


def usual_session(cut=False):
    """The journal of a usual client's session, with its login. With `cut` what comes behind the login comes a byte at a
    time."""
    made = Journal([("alice", "pw-alice"), ("bob", "pw-bob")])
    made.connect(1, 0, bytes(24))
    made.piece(1, 0, login("alice", "pw-alice", bytes(24))[:-len(STREAM)])
    for said, _ in SESSION:
        made.pieces(1, 0, said, 1 if cut else len(said))
    return made
