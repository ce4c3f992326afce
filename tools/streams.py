"""Streams that are made from numbers: random ones, and right ones of which one place is changed."""
import base64
import binascii
import random
import re

import journals
import stanzas

ZERO = bytes(24)
RIGHT, RANDOM = "near-right", "random"
# what streams are made of, right and wrong
SCRAPS = [
    b"<", b">", b"/>", b"</", b"<a", b"<a>", b"</a>", b"<b x='1'>", b"</b>", b"<a/>", b" x='", b"'", b'"', b"=", b" ", b"\t",
    b"\r\n", b"\r", b"&", b";", b"&amp;", b"&lt;", b"&nbsp;", b"&#x41;", b"&#65;", b"&#0;", b"&#xD800;", b"&#x1F600;",
    b"<![CDATA[", b"]]>", b"]", b"<!", b"<!--", b"-->", b"<?", b"?>", b"<?xml version='1.0'?>",
    b"<?xml version='1.0' encoding='utf-8'?>", b"xml:lang='en'", b":", b"xmlns='u'", b" xmlns:p='u'", b"<p:a>", b"</p:a>",
    b"p:x='2'", b" xmlns=''", b"stream:stream", b"</stream:stream>", b"text", "zwei W\u00f6rter".encode(),
    "\U0001f600".encode(), b"\xff", b"\xc3", b"\xed\xa0\x80", b"\xef\xbf\xbe", b"\x00", b"\x0b", b"\x7f",
    b"<message>", b"</message>", b"<body>", b"</body>", b"<iq type='get' id='1'>", b"</iq>", b"<presence/>",
    b"<r xmlns='urn:xmpp:sm:3'/>", b"<a xmlns='urn:xmpp:sm:3' h='0'/>", b"<enable xmlns='urn:xmpp:sm:3'/>",
    b"<auth xmlns='urn:ietf:params:xml:ns:xmpp-sasl' mechanism='SCRAM-SHA-256'>", b"</auth>", b"biwsbj1hLHI9Yg==",
    b"<abort xmlns='urn:ietf:params:xml:ns:xmpp-sasl'/>", journals.STREAM.encode()]
# whole items, of which some may not stand where they come
SOUND = [
    b"<message/>", b"<presence/>", b"<iq type='get' id='1'/>", b"<iq type='get'/>", b"<iq type='set' id='1'><x xmlns='y'/></iq>",
    b"<message from='bob@chat.example'/>", b"<message to='a b'/>", b"<message xmlns='u'/>",
    b"<p:a xmlns:p='u' p:b='&lt;'/>", b"<a><b>x</b>y</a>",
    b"<message to='alice@chat.example'><body>a&amp;b<![CDATA[<c>]]></body></message>", b" \n", b"<?xml version='1.0'?>",
    b"<r xmlns='urn:xmpp:sm:3'/>", b"<a xmlns='urn:xmpp:sm:3' h='0'/>", b"<a xmlns='urn:xmpp:sm:3' h='x'/>",
    b"<resume xmlns='urn:xmpp:sm:3' previd='0000000000000001' h='0'/>", b"<enable xmlns='urn:xmpp:sm:3'/>",
    b"<auth xmlns='urn:ietf:params:xml:ns:xmpp-sasl' mechanism='PLAIN'/>",
    b"<abort xmlns='urn:ietf:params:xml:ns:xmpp-sasl'/>",
    b"<auth xmlns='urn:ietf:params:xml:ns:xmpp-sasl' mechanism='SCRAM-SHA-256'>biwsbj1hbGljZSxyPWFiYw==</auth>",
    b"<response xmlns='urn:ietf:params:xml:ns:xmpp-sasl'>biws</response>",
    b"<d>" * 33 + b"</d>" * 33, b"<stream:features/>", b"<stream:error/>", journals.STREAM.encode()]


def logged_in(draw):
    """What a client says up to its session."""
    counted = draw.choice(["", journals.enable(True), journals.enable(False)])
    shown = draw.choice(["", "<presence/>"])
    return journals.login("alice", "pw-alice", ZERO) + journals.bind(draw.choice(stanzas.RESOURCES)) + counted + shown


def said(draw, most):
    return "".join(draw.choice(stanzas.SAYS)(draw) for _ in range(draw.randrange(most)))


def a_random_one(draw):
    """Some scraps or whole items: behind nothing, a header or a session's beginning, or inside an element."""
    of = draw.choice([SCRAPS, SOUND])
    scraps = b"".join(draw.choice(of) for _ in range(draw.randrange(1, 16)))
    if draw.random() < 0.01:
        scraps += b"<a b='" + b"x" * draw.choice([65_528, 65_529]) + b"'/>"
    before = draw.choice(["", journals.STREAM, journals.STREAM + "<a>", logged_in(draw), logged_in(draw) + "<message>"])
    return before.encode() + scraps


def changed(draw, whole):
    """The same but for one change."""
    at, size = draw.randrange(len(whole)), draw.choice([1, 1, 2, 8, 40])
    other = draw.choice([draw.choice(SCRAPS), bytes([draw.randrange(256)]), draw.choice([b"'", b"<", b">", b"/", b"&", b" ", b"="])])
    return draw.choice([
        whole[:at], whole[:at] + whole[at + size:], whole[:at] + other + whole[at:], whole[:at] + other + whole[at + len(other):],
        whole[:at] + whole[at:at + size] + whole[at:],
        whole[:at] + whole[at + 1:at + 2] + whole[at:at + 1] + whole[at + 2:]])


def has_two_proofs(whole):
    """Whether a client's final message has `,p=` twice. Whether the first one is an extension can be read in two ways
    (RFC 5802, section 7)."""
    found = re.search(rb"<response [^>]*>([A-Za-z0-9+/=]*)<", whole)
    try:
        return found is not None and base64.b64decode(found[1]).count(b",p=") > 1
    except binascii.Error:
        return False


def a_near_right_one(draw):
    right = (logged_in(draw) + said(draw, 5) + draw.choice(["", "</stream:stream>"])).encode()
    near = changed(draw, right)
    while has_two_proofs(near):
        near = changed(draw, right)
    return near


def stream(kind, number):
    return (a_near_right_one if kind == RIGHT else a_random_one)(random.Random(f"{kind} {number}"))
