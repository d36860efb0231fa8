#!/usr/bin/python3
"""Measures the built agentd at many sockets: how soon they are bound, and what open streams cost while nothing happens.
Usage: bench/serve/sockets.py [SOCKETS [STREAMS_OF_EACH [SECONDS_OF_IDLE [THREADS]]]]

Each stream has a connection of its own, and has taken its first response. It needs root, for sockets of several users, and openssl."""
import json
import pathlib
import resource
import sys
import tempfile
import time

HERE = pathlib.Path(__file__).resolve().parent
sys.path[:0] = [str(HERE), str(HERE.parent.parent / "tools")]
from agent import AGENTD, DOMAIN, SIGNER, Agent
from bare import call, connect, messages
from many import processor_seconds, resident

FIRST_UID = 62_000
X509 = "/SpiffeWorkloadAPI/FetchX509SVID"


class Many(Agent):
    """An agent with so many sockets, each of whose callers has the one entry."""

    def __init__(self, folder, sockets, threads):
        self.folder, self.running = pathlib.Path(folder), {}
        self.names = [str(FIRST_UID + it) for it in range(sockets)]
        self.run(SIGNER, "ca", "ca", DOMAIN)
        entry = {"id": "all", "spiffe_id": f"spiffe://{DOMAIN}/all", "selectors": ["node:this"], "ttl": 86_400}
        (self.folder / "entries.json").write_text(json.dumps([entry]))
        (self.folder / "node.json").write_bytes(self.run(SIGNER, "document", "ca", "entries.json"))
        item = {"path": "{uid}.sock", "uids": [f"{self.names[0]}-{self.names[-1]}"], "selectors": ["node:this"], "connections": 16_384}
        config = {"version": 1, "document": "node.json", "signer": "signer.sock", "poll_seconds": 3600, "threads": threads, "sockets": [item]}
        (self.folder / "agent.json").write_text(json.dumps(config))
        self.start_signer()

    def bind(self):
        """The seconds until the last of the sockets is there."""
        start = time.monotonic()
        self.start("agentd", [AGENTD, "serve", "agent.json"], self.names[-1])
        missing = [it for it in self.names if not self.socket(it).is_socket()]
        while missing:
            missing = [it for it in missing if not self.socket(it).is_socket()]
        return time.monotonic() - start


def open_streams(agent, each):
    opened = [connect(agent.socket(it), 60) for it in agent.names for _ in range(each)]
    for it in opened:
        call(it, X509)
        next(messages(it))
    return opened


def main():
    words = [int(it) for it in sys.argv[1:]]
    sockets, each, seconds, threads = words + [1_000, 10, 30, 2][len(words):]
    most = sockets * each + sockets + 1_000
    resource.setrlimit(resource.RLIMIT_NOFILE, (most, max(most, resource.getrlimit(resource.RLIMIT_NOFILE)[1])))
    with tempfile.TemporaryDirectory(prefix="sockets-") as folder:
        agent = Many(folder, sockets, threads)
        try:
            bound = agent.bind()
            time.sleep(3)
            before = resident(agent.agentd)
            start = time.monotonic()
            opened = open_streams(agent, each)
            took = time.monotonic() - start
            grown = resident(agent.agentd) - before
            at_rest = processor_seconds(agent.agentd)
            time.sleep(seconds)
            idle = (processor_seconds(agent.agentd) - at_rest) / seconds * 100
            print("| sockets | threads | all bound after, s | streams | opened in, s | bytes a stream | idle, % of a processor |")
            print("|---|---|---|---|---|---|---|")
            print(f"| {sockets} | {threads} | {bound:.2f} | {len(opened)} | {took:.1f} | {grown // len(opened)} | {idle:.2f} |")
        finally:
            agent.stop()


main()
