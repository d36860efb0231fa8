#!/usr/bin/python3
"""Measures the built agentd beside many open streams: how soon a new identity reaches the streams of its caller, and those of all callers;
what a first response costs beside idle streams, and beside a greedy caller of another socket of the same thread.
Usage: bench/serve/reach.py [SOCKETS [STREAMS_OF_EACH]]

It needs root, for sockets of several users, and gcc."""
import base64
import json
import os
import pathlib
import resource
import select
import socket
import statistics
import subprocess
import sys
import tempfile
import threading
import time

HERE = pathlib.Path(__file__).resolve().parent
sys.path[:0] = [str(HERE), str(HERE.parent.parent / "tools")]
from agent import AGENTD, DOMAIN
from bare import call, connect, messages
from many import certificate, listening

FIRST_UID = 62_000
X509 = "/SpiffeWorkloadAPI/FetchX509SVID"
# an identity of so many seconds is renewed after half of them
SHORT, LONG = 6, 86_400
ROUNDS = 8
RESPONSES = 3_000
THREADS = 2


class Outside:
    """A document of two entries, `all` for every caller and `one` for the caller of the first socket, and a signer that notes when it gave
    which identity."""

    def __init__(self, folder, ttl_of_all, ttl_of_one):
        self.given = []
        bundle = {"trust_domain": DOMAIN, "x509": base64.b64encode(bytes(600)).decode()}
        entries = [self.entry("all", "node:this", ttl_of_all), self.entry("one", f"unix:uid:{FIRST_UID}", ttl_of_one)]
        document = {"version": 2, "trust_domain": DOMAIN, "bundles": [bundle], "entries": entries}
        (folder / "node.json").write_text(json.dumps(document))
        server = listening(folder / "signer.sock")
        threading.Thread(target=self.accept, args=(server,), daemon=True).start()

    @staticmethod
    def entry(name, selector, ttl):
        return {"id": name, "spiffe_id": f"spiffe://{DOMAIN}/{name}", "selectors": [selector], "ttl": ttl}

    def accept(self, server):
        while True:
            peer, _ = server.accept()
            threading.Thread(target=self.sign, args=(peer,), daemon=True).start()

    def sign(self, peer):
        with peer, peer.makefile("rb") as lines:
            for line in lines:
                ask = json.loads(line)
                begin = int(time.time())
                end = begin + ask["ttl"]
                reply = {"chain": base64.b64encode(certificate(ask["spiffe_id"], begin, end)).decode(),
                         "key": base64.b64encode(bytes(138)).decode(), "not_before": begin, "not_after": end}
                self.given.append((ask["spiffe_id"], time.monotonic()))
                peer.sendall(json.dumps(reply).encode() + b"\n")


class Running:
    """An agent with so many sockets, and the streams that are open on them."""

    def __init__(self, folder, sockets, ttl_of_all, ttl_of_one):
        self.folder, self.opened = pathlib.Path(folder), []
        self.names = [str(FIRST_UID + it) for it in range(sockets)]
        self.outside = Outside(self.folder, ttl_of_all, ttl_of_one)
        item = {"path": "{uid}.sock", "uids": [f"{self.names[0]}-{self.names[-1]}"], "selectors": ["node:this"], "connections": 16_384}
        config = {"version": 1, "document": "node.json", "signer": "signer.sock", "poll_seconds": 3600, "threads": THREADS, "sockets": [item]}
        (self.folder / "agent.json").write_text(json.dumps(config))
        self.process = subprocess.Popen([AGENTD, "serve", "agent.json"], cwd=folder, stdin=subprocess.DEVNULL, stderr=subprocess.DEVNULL)
        while not self.socket(-1).is_socket():
            time.sleep(0.01)

    def socket(self, at):
        return self.folder / f"{self.names[at]}.sock"

    def open_streams(self, each):
        self.opened = [connect(self.folder / f"{it}.sock", 60) for it in self.names for _ in range(each)]
        for it in self.opened:
            call(it, X509)
            next(messages(it))

    def reaches(self, identity, streams):
        """For each of some rounds the milliseconds from the signer's last answer until the last of the first streams had something to read."""
        poll, found = select.epoll(), []
        by_number = {it.fileno(): it for it in self.opened}
        for number in by_number:
            poll.register(number, select.EPOLLIN)
        awaited = {it.fileno() for it in self.opened[:streams]}
        while len(found) < ROUNDS:
            left, last = set(awaited), 0.0
            while left:
                for number, _ in poll.poll(60, 20_000):
                    last = time.monotonic()
                    by_number[number].recv(65_536)
                    left.discard(number)
            given = [at for name, at in self.outside.given if name.endswith(identity) and at <= last]
            found.append((last - given[-1]) * 1000)
        return found

    def end(self):
        for it in self.opened:
            it.close()
        self.process.terminate()
        self.process.wait()


def microseconds(frames, path):
    """A first response on a connection of its own, one after the other."""
    ran = subprocess.run([frames, str(path), "new", str(RESPONSES), "1"], check=True, capture_output=True, text=True)
    return float(ran.stdout.split()[0]) / RESPONSES * 1e6


def middle(frames, path):
    return statistics.median(microseconds(frames, path) for _ in range(5))


def said(found):
    return f"{statistics.median(found):.1f} ({min(found):.1f} to {max(found):.1f})"


def measure_reach(sockets, each, ttl_of_all, ttl_of_one, identity, streams):
    with tempfile.TemporaryDirectory(prefix="reach-") as folder:
        agent = Running(folder, sockets, ttl_of_all, ttl_of_one)
        try:
            agent.open_streams(each)
            return agent.reaches(identity, streams)
        finally:
            agent.end()


def measure_responses(frames, sockets, each):
    with tempfile.TemporaryDirectory(prefix="reach-") as folder:
        agent = Running(folder, sockets, LONG, LONG)
        greedy = None
        try:
            own = agent.socket(0)
            alone = middle(frames, own)
            agent.open_streams(each)
            beside = middle(frames, own)
            # of another thread, and of the same one
            of_others = []
            for it in 1, THREADS:
                greedy = subprocess.Popen([frames, str(agent.socket(it)), "new", "1000000000", "8"], stdout=subprocess.DEVNULL)
                time.sleep(0.5)
                of_others.append(middle(frames, own))
                greedy.kill()
                greedy.wait()
            return alone, beside, *of_others
        finally:
            if greedy:
                greedy.kill()
                greedy.wait()
            agent.end()


def main():
    words = [int(it) for it in sys.argv[1:]]
    sockets, each = words + [1_000, 10][len(words):]
    most = sockets * each + sockets + 1_000
    resource.setrlimit(resource.RLIMIT_NOFILE, (most, max(most, resource.getrlimit(resource.RLIMIT_NOFILE)[1])))
    with tempfile.TemporaryDirectory(prefix="frames-") as folder:
        frames = f"{folder}/frames"
        subprocess.run(["gcc", "-O2", "-pthread", str(HERE / "frames.c"), "-o", frames], check=True)
        alone, beside, elsewhere, greedy = measure_responses(frames, sockets, each)
    streams = sockets * each
    one = measure_reach(sockets, each, LONG, SHORT, "one", each)
    whole = measure_reach(sockets, each, SHORT, LONG, "all", streams)
    print(f"| a new identity of one caller reaches its {each} streams, of {streams} | {said(one)} ms |")
    print(f"| a new identity of all callers reaches their {streams} streams | {said(whole)} ms |")
    print(f"| a first response, with no stream open | {alone:.0f} us |")
    print(f"| beside {streams} idle streams | {beside:.0f} us, {beside / alone:.2f} times |")
    print(f"| and beside a greedy caller of a socket of another thread | {elsewhere:.0f} us, {elsewhere / alone:.2f} times |")
    print(f"| and beside a greedy caller of another socket of its thread | {greedy:.0f} us, {greedy / alone:.2f} times |")


if __name__ == "__main__":
    main()
