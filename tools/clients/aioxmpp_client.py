"""aioxmpp, driven by lines: `say TO TEXT`. What comes is told in lines too.

    aioxmpp_client.py PORT
"""
import asyncio
import sys

import aioxmpp
import aioxmpp.connector
import aioxmpp.dispatcher

ALICE = aioxmpp.JID.fromstr("alice@chat.example/phone")
HOST, PASSWORD = "127.0.0.1", "pw-alice"


def tell(*words):
    print(*words, flush=True)


def on_message(message):
    if message.body:
        tell("got", message.from_, message.body.any())


async def driven(port):
    layer = aioxmpp.make_security_layer(PASSWORD, no_verify=True)._replace(tls_required=False)
    client = aioxmpp.PresenceManagedClient(ALICE, layer, override_peer=[(HOST, port, aioxmpp.connector.STARTTLSConnector())])
    client.summon(aioxmpp.dispatcher.SimpleMessageDispatcher).register_callback(None, None, on_message)
    client.on_stream_resumed.connect(lambda: tell("resumed"))
    async with client.connected():
        tell("in", client.local_jid)
        loop = asyncio.get_running_loop()
        while line := await loop.run_in_executor(None, sys.stdin.readline):
            words = line.rstrip("\n").split(" ", 2)
            message = aioxmpp.Message(type_=aioxmpp.MessageType.CHAT, to=aioxmpp.JID.fromstr(words[1]))
            message.body[None] = words[2]
            client.enqueue(message)


if __name__ == "__main__":
    asyncio.run(driven(int(sys.argv[1])))
