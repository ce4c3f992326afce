"""What clients say, drawn from numbers: messages, presence, requests, pages and counts, most of them right."""
import journals

ACCOUNTS = [("alice", "pw-alice"), ("bob", "pw-bob"), ("carol", "~!x")]
RESOURCES = ["desk", "phone", "pad"]


def address(draw):
    name = draw.choice([name for name, _ in ACCOUNTS] + ["nobody"])
    bare = f"{name}@{draw.choice([journals.DOMAIN] * 9 + ['other.example'])}"
    return draw.choice(["", bare, bare, f"{bare}/{draw.choice(RESOURCES)}", journals.DOMAIN, "a b@c", "Alice@Chat.Example"])


def body(draw):
    return draw.choice(["hi", "a&lt;b", "&#x9;x", "", "zwei W&#xF6;rter", "x" * 40])


def children(draw):
    """What stands in a message beside its body."""
    ours = f"{draw.choice(['alice', 'bob'])}@{journals.DOMAIN}"
    return "".join(draw.sample([
        "<origin-id xmlns='urn:xmpp:sid:0' id='o1'/>", f"<stanza-id xmlns='urn:xmpp:sid:0' by='{ours}' id='f'/>",
        "<private xmlns='urn:xmpp:carbons:2'/>", "<no-copy xmlns='urn:xmpp:hints'/>", "<body xml:lang='de'>hallo</body>",
        "<x xmlns='jabber:x:data'><y/></x>", "<thread>t</thread>", "tail"], draw.randrange(3)))


def a_message(draw):
    kind = draw.choice(["chat", "normal", "headline", "error", "groupchat", "odd", ""])
    attributes = "".join(f" {name}='{value}'" for name, value in [("to", address(draw)), ("type", kind),
                         ("id", draw.choice(["", "m1", "x&amp;y"]))] if value)
    text = f"<body>{body(draw)}</body>" if draw.random() < 0.8 else ""
    return f"<message{attributes}>{text}{children(draw)}</message>"


def a_query(draw):
    fields = ["<field var='FORM_TYPE'><value>urn:xmpp:mam:2</value></field>"]
    if draw.random() < 0.5:
        fields.append(f"<field var='with'><value>{address(draw)}</value></field>")
    form = f"<x xmlns='jabber:x:data' type='submit'>{''.join(fields)}</x>" if draw.random() < 0.7 else ""
    place = draw.choice(["", "<before/>", f"<after>{draw.randrange(6):016x}</after>", f"<before>{draw.randrange(6):016x}</before>"])
    bound = f"<max>{draw.choice([0, 1, 2, 10, 300])}</max>" if draw.random() < 0.8 else ""
    page = f"<set xmlns='http://jabber.org/protocol/rsm'>{bound}{place}</set>" if draw.random() < 0.8 else ""
    ident = draw.choice(["", " queryid='q'"])
    return f"<iq type='set' id='q'><query xmlns='urn:xmpp:mam:2'{ident}>{form}{page}</query></iq>"


def a_request(draw):
    payload = draw.choice([
        "<ping xmlns='urn:xmpp:ping'/>", "<query xmlns='jabber:iq:roster'/>", "<x xmlns='y'/>", "",
        "<query xmlns='http://jabber.org/protocol/disco#info'/>",
        "<session xmlns='urn:ietf:params:xml:ns:xmpp-session'/>",
        "<enable xmlns='urn:xmpp:carbons:2'/>", "<disable xmlns='urn:xmpp:carbons:2'/>"])
    to = address(draw) if draw.random() < 0.3 else ""
    attributes = f" to='{to}'" if to else ""
    return f"<iq type='{draw.choice(['get', 'set', 'set', 'result', 'error'])}' id='i'{attributes}>{payload}</iq>"


def a_presence(draw):
    return draw.choice([
        "<presence/>", "<presence><priority>5</priority></presence>", "<presence><priority>-1</priority></presence>",
        "<presence type='unavailable'/>", f"<presence to='{ACCOUNTS[0][0]}@{journals.DOMAIN}'/>",
        "<presence type='subscribe'/>"])


def a_count(draw):
    handled = draw.choice([0, 0, 1, 2, 3, 90])
    return draw.choice([f"<r xmlns='{journals.MANAGEMENT}'/>", f"<a xmlns='{journals.MANAGEMENT}' h='{handled}'/>"])


def carbons(draw):
    return "<iq type='set' id='c'><enable xmlns='urn:xmpp:carbons:2'/></iq>"


SAYS = [a_message] * 8 + [a_query, a_request, a_presence, a_count, carbons]
