"""slixmpp, driven by lines: `say TO TEXT`, `history`, `leave`. What comes is told in lines too.

    slixmpp_client.py PORT ACCOUNT RESOURCE
"""
import asyncio
import sys

import slixmpp

DOMAIN, HOST, PLUGINS = "chat.example", "127.0.0.1", (30, 59, 198, 199, 203, 280, 297, 313, 359)
PAGE, SECONDS = "10", 20


def tell(*words):
    print(*words, flush=True)


class Client(slixmpp.ClientXMPP):
    def __init__(self, port, account, resource):
        super().__init__(f"{account}@{DOMAIN}/{resource}", f"pw-{account}")
        self.port, self.leaving = port, False
        # slixmpp logs in by SCRAM without TLS where it is told to
        self.plugin["feature_mechanisms"].unencrypted_scram = True
        for number in PLUGINS:
            self.register_plugin(f"xep_{number:04}")
        for name in ("session_start", "session_resumed", "message", "carbon_sent", "carbon_received", "disconnected"):
            self.add_event_handler(name, getattr(self, f"on_{name}"))

    def dial(self):
        self.connect((HOST, self.port), use_ssl=False, force_starttls=False, disable_starttls=True)

    async def on_session_start(self, _event):
        await self.plugin["xep_0280"].enable(timeout=SECONDS)
        self.send_presence()
        await self.plugin["xep_0199"].ping(DOMAIN, timeout=SECONDS)
        tell("in", self.boundjid)

    def on_session_resumed(self, _event):
        tell("resumed")

    def on_message(self, message):
        if message["body"]:
            tell("got", message["from"], message["body"])

    def on_carbon_sent(self, message):
        tell("carbon sent", message["carbon_sent"]["body"])

    def on_carbon_received(self, message):
        tell("carbon received", message["carbon_received"]["body"])

    def on_disconnected(self, _reason):
        tell("disconnected")
        if not self.leaving:
            self.loop.call_later(1, self.dial)

    async def history(self):
        """Pages from the newest back to the first."""
        walked = self.plugin["xep_0313"].retrieve(timeout=SECONDS, iterator=True, reverse=True, rsm={"max": PAGE})
        async for page in walked:
            for it in page["mam"]["results"]:
                tell("archive", it["mam_result"]["forwarded"]["stanza"]["body"])
        tell("archive is read")

    async def do(self, line):
        words = line.rstrip("\n").split(" ", 2)
        if words[0] == "say":
            self.send_message(mto=words[1], mbody=words[2], mtype="chat")
        elif words[0] == "history":
            await self.history()
        elif words[0] == "leave":
            self.leaving = True
            self.disconnect(wait=1)


async def driven(client):
    client.dial()
    loop = asyncio.get_running_loop()
    while line := await loop.run_in_executor(None, sys.stdin.readline):
        await client.do(line)


def main(argv):
    if argv == ["--version"]:
        print(slixmpp.__version__)
        return
    loop = asyncio.new_event_loop()
    asyncio.set_event_loop(loop)
    loop.run_until_complete(driven(Client(int(argv[0]), *argv[1:])))


if __name__ == "__main__":
    main(sys.argv[1:])
