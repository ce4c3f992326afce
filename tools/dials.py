"""What a server says to a client, and what its user does, as lines of the program `trial_client`."""

ME = "alice@chat.example"
FULL = ME + "/phone"
HEADER = ("<?xml version='1.0'?><stream:stream from='chat.example' id='1' version='1.0' xml:lang='en' xmlns='jabber:client' "
          "xmlns:stream='http://etherx.jabber.org/streams'>")
SASL = "xmlns='urn:ietf:params:xml:ns:xmpp-sasl'"
SM = "xmlns='urn:xmpp:sm:3'"
# for the password `pw-alice`, a salt of 16 bytes, 4,096 iterations, and nonces of zero bytes and of a one and zero bytes
CHALLENGE = ("cj1BQUFBQUFBQUFBQUFBQUFBQUFBQUFBQUFBUUFBQUFBQUFBQUFBQUFBQUFBQUFBQUEscz10aFQveXVDV0Z5SkhVYU5XUHMyZy9BPT0saT00MDk2")
SUCCESS = "dj14ZEwxWVRDZVhKU2VpTmY2aEh1OHFtQWZib05RQnloT3lKUUYvY0o1cGxzPQ=="
LOGIN = [HEADER, f"<stream:features><mechanisms {SASL}><mechanism>SCRAM-SHA-256</mechanism></mechanisms></stream:features>",
         f"<challenge {SASL}>{CHALLENGE}</challenge>", f"<success {SASL}>{SUCCESS}</success>", HEADER,
         f"<stream:features><bind xmlns='urn:ietf:params:xml:ns:xmpp-bind'/><sm {SM}/></stream:features>"]
BIND = [f"<iq id='bind' type='result'><bind xmlns='urn:ietf:params:xml:ns:xmpp-bind'><jid>{FULL}</jid></bind></iq>",
        f"<enabled {SM} id='s' max='300' resume='true'/>"]
PING = f"<iq from='chat.example' id='p' to='{FULL}' type='get'><ping xmlns='urn:xmpp:ping'/></iq>"


def piece(*texts):
    """These texts come at once."""
    return "piece " + "".join(texts).encode().hex()


def a(count):
    """So many stanzas are acknowledged."""
    return f"<a {SM} h='{count}'/>"


CLIENT = [f"client {ME} pw-alice phone", "dial " + "00" * 24]
# a session of which nothing waits
START = [*CLIENT, *map(piece, LOGIN + BIND), piece(a(2))]


def live(number, held):
    """A message that comes by itself, with an id of the account's archive or of another one."""
    given = f"<stanza-id xmlns='urn:xmpp:sid:0' by='{ME if held else 'bob@chat.example'}' id='{number:016x}'/>"
    return f"<message from='bob@chat.example/r' id='m' to='{FULL}' type='chat'><body>message {number}</body>{given}</message>"


def result(number, query, by=""):
    """A result of a page, from the account's archive or from another address."""
    inner = (f"<message xmlns='jabber:client' from='bob@chat.example/r' id='m' to='{ME}' type='chat'>"
             f"<body>message {number}</body></message>")
    sender = f" from='{by}'" if by else ""
    return (f"<message{sender} to='{FULL}'><result xmlns='urn:xmpp:mam:2' id='{number:016x}' queryid='{query}'>"
            "<forwarded xmlns='urn:xmpp:forward:0'>"
            f"<delay xmlns='urn:xmpp:delay' stamp='2020-01-01T00:00:00.000Z'/>{inner}</forwarded></result></message>")


def fin(query, first, last, count, done):
    """The end of a page, from the entry of one number to that of another."""
    complete = " complete='true'" if done else ""
    return (f"<iq id='{query}' to='{FULL}' type='result'><fin xmlns='urn:xmpp:mam:2'{complete}>"
            "<set xmlns='http://jabber.org/protocol/rsm'>"
            f"<first index='{first - 1}'>{first:016x}</first><last>{last:016x}</last><count>{count}</count></set></fin></iq>")
