"""An agent whose signer and authority are threads of this process and can be held, and what its callers see."""
import base64
import contextlib
import importlib.machinery
import importlib.util
import json
import signal
import socket
import sys
import threading
import time

# (the sample signer is no module, and leaves no compiled file beside itself)
sys.dont_write_bytecode = True
import bare
from agent import AGENTD, SIGNER, Agent, entry
from messages import API, jwt_request, svids

# how long what is late is waited for
PATIENCE = 8
# how long an exchange with the signer may take (docs/OPERATING.md), and how often these agents pull
EXCHANGE_SECONDS, POLL_SECONDS = 10, 1
# the life of an identity that is to stay
LONG = 3600

loader = importlib.machinery.SourceFileLoader("sample_signer", str(SIGNER))
sample = importlib.util.module_from_spec(importlib.util.spec_from_loader(loader.name, loader))
loader.exec_module(sample)


def expect(holds, what):
    if not holds:
        raise RuntimeError(what)


def wait_until(holds, seconds):
    """Whether it holds within so many seconds."""
    until = time.time() + seconds
    while not holds():
        if time.time() > until:
            return False
        time.sleep(0.02)
    return True


class Peer:
    """A process behind a Unix socket that can be held. Each connection is given to `serve` in a thread of its own."""

    def __init__(self, path):
        self.path, self.opened = path, []
        self.listen()

    def bind(self, backlog):
        """A socket at the path in the place of what stood there, and none of the connections before."""
        self.path.unlink(missing_ok=True)
        for it in self.opened:
            with contextlib.suppress(OSError):
                it.shutdown(socket.SHUT_RDWR)
        listener = socket.socket(socket.AF_UNIX)
        listener.bind(str(self.path))
        listener.listen(backlog)
        self.opened = [listener]
        return listener

    def listen(self):
        listener = self.bind(128)
        threading.Thread(target=self.accept, args=(listener,), daemon=True).start()

    def accept(self, listener):
        with contextlib.suppress(OSError):
            while True:
                opened, _ = listener.accept()
                self.opened.append(opened)
                threading.Thread(target=self.serve, args=(opened,), daemon=True).start()

    def be_deaf(self):
        """Listens, and accepts nobody."""
        self.bind(128)

    def be_full(self):
        """Listens, accepts nobody, and has a full backlog."""
        self.bind(0)
        with contextlib.suppress(BlockingIOError):
            while True:
                waiting = socket.socket(socket.AF_UNIX)
                waiting.setblocking(False)
                self.opened.append(waiting)
                waiting.connect(str(self.path))

    def be_a_file(self):
        self.bind(0)
        self.path.unlink()
        self.path.write_text("no socket\n")


class Authority(Peer):
    """It gives `document` piece by piece, as `pieces` says."""

    def __init__(self, path):
        self.document, self.pieces, self.pulls = b"", whole, []
        super().__init__(path)

    def serve(self, opened):
        self.pulls.append(time.time())
        with contextlib.suppress(OSError), opened:
            for piece in self.pieces(self.document):
                opened.sendall(piece)


def whole(document):
    yield document


class Signer(Peer):
    """It answers each ask by the pieces that `pieces` gives for it and its right answer; it notes asks and answers."""

    def __init__(self, path, ca):
        self.ca, self.pieces, self.lock = ca, right, threading.Lock()
        # each with its moment
        self.asks, self.answers = [], []
        super().__init__(path)

    def right_answer(self, ask):
        with self.lock:
            given = (sample.sign_x509 if ask["kind"] == "x509" else sample.sign_jwt)(self.ca, ask)
        return {**given, "number": ask["number"]}

    def serve(self, opened):
        with contextlib.suppress(OSError), opened, opened.makefile("rb") as lines:
            for line in lines:
                ask = json.loads(line)
                self.asks.append((time.time(), ask["entry"]))
                self.answer(opened, ask)

    def answer(self, opened, ask):
        """Pieces are bytes, or answers, of which right ones are noted."""
        for piece in self.pieces(self, ask):
            if isinstance(piece, dict) and "chain" in piece:
                self.answers.append((time.time(), ask["entry"], piece))
            opened.sendall(piece if isinstance(piece, bytes) else line_of(piece))

    def asked(self, name):
        """When this entry was asked for."""
        return [at for at, it in self.asks if it == name]

    def given(self, name):
        """The right answers for this entry."""
        return [given for _, it, given in self.answers if it == name]

    def lives(self):
        """The first and the last second of each identity that was given, by its chain."""
        return {chain_of(given): (given["not_before"], given["not_after"]) for _, _, given in self.answers}


def chain_of(answer):
    return base64.b64decode(answer["chain"])


def line_of(answer):
    return json.dumps(answer, separators=(",", ":")).encode() + b"\n"


def padded(answer, length):
    """The same answer in a line of so many bytes before its newline."""
    room = length + 1 - len(line_of({**answer, "more": ""}))
    return line_of({**answer, "more": "x" * room})


def right(signer, ask):
    yield signer.right_answer(ask)


class HeldAgent(Agent):
    """An agent with an authority and a signer that can be held. `sockets` has the lives of its entries by socket and name."""

    def __init__(self, folder, ca, sockets, pieces):
        self.folder, self.running, self.ca = folder, {}, ca
        folder.mkdir()
        self.entries = [entry(name, ttl, [], it) for it, lives in sockets.items() for name, ttl in lives.items()]
        self.authority, self.signer = Authority(self.socket("authority")), Signer(self.socket("signer"), ca)
        self.signer.pieces = pieces
        self.write_document()
        listed = [{"path": str(self.socket(it)), "connections": 4, "selectors": [f"socket:{it}"]} for it in sockets]
        config = {"version": 1, "upstream": str(self.authority.path), "signer": str(self.signer.path), "poll_seconds": POLL_SECONDS,
                  "sockets": listed}
        (folder / "agent.json").write_text(json.dumps(config))
        self.start("agentd", [AGENTD, "serve", "agent.json"], *sockets)

    def write_document(self):
        self.authority.document = json.dumps(sample.document(self.ca, self.entries)).encode()

    def add(self, socket_name, name, ttl=LONG):
        self.entries.append(entry(name, ttl, [], socket_name))
        self.write_document()

    def remove(self, name):
        self.entries = [it for it in self.entries if it["id"] != name]
        self.write_document()

    def stop(self):
        # (one that was held ends by nothing else)
        self.agentd.send_signal(signal.SIGCONT)
        super().stop()

    def fetch(self, name, seconds=2 * EXCHANGE_SECONDS):
        """The names of the first message that a new caller of this socket gets."""
        with bare.connect(self.socket(name), seconds) as opened:
            bare.call(opened, API + "FetchX509SVID")
            return set(chains_of(next(bare.messages(opened))))

    def fetched_without(self, socket_name, name):
        """When a new caller of this socket gets a message without this entry."""
        expect(wait_until(lambda: name not in self.fetch(socket_name), PATIENCE), f"new callers get {name}")
        return time.time()

    def end_for_new_callers(self, name):
        """How many seconds after the first end of an identity of this socket a new caller of it was given one last; new callers then
        wait."""
        ends = [self.signer.given(it["id"])[-1]["not_after"] for it in self.entries if f"socket:{name}" in it["selectors"]]
        given, until = time.time(), min(ends) + PATIENCE
        while time.time() < min(until, given + 3):
            with contextlib.suppress(TimeoutError):
                self.fetch(name, 0.5)
                given = time.time()
            time.sleep(0.05)
        expect(given > min(ends) - 1, f"nobody was given one {min(ends) - given:.1f} seconds before its end")
        return given - min(ends)

    def token_status(self, name):
        """The status of a call for a token, and how many seconds it took."""
        began = time.time()
        with bare.connect(self.socket(name), 2 * EXCHANGE_SECONDS) as opened:
            bare.call(opened, API + "FetchJWTSVID", jwt_request(f"audience {began}"))
            try:
                for _ in bare.messages(opened):
                    pass
            except bare.Ended as end:
                return end.status, time.time() - began


def chains_of(message):
    """The chain of each identity, by the name that its id ends with."""
    return {it.spiffe_id.rsplit("/", 1)[1]: it.chain for it in svids(message)}


class Stream:
    """An open FetchX509SVID: what it was shown, and when."""

    def __init__(self, agent, name):
        self.seen, self.moved, self.end = [], threading.Condition(), None
        threading.Thread(target=self.read, args=(agent.socket(name),), daemon=True).start()

    def read(self, path):
        try:
            with bare.connect(path, 60) as opened:
                bare.call(opened, API + "FetchX509SVID")
                for message in bare.messages(opened):
                    with self.moved:
                        self.seen.append((time.time(), chains_of(message)))
                        self.moved.notify_all()
        except (OSError, bare.Ended) as end:
            self.end = end

    def when(self, holds, seconds, since=0):
        """The moment of the first message, from this moment on, for which it holds."""
        found = []

        def is_there():
            found[:] = [at for at, shown in self.seen if at >= since and holds(shown)]
            return bool(found)

        with self.moved:
            self.moved.wait_for(is_there, seconds)
        expect(found, f"the stream did not show it in {seconds} seconds; {self.end or 'it stands'}")
        return found[0]

    def ages(self, name, lives):
        """How many seconds after its begin each identity of this entry gave way to the next one."""
        chains = [(at, shown.get(name)) for at, shown in self.seen]
        changes = [(at, old, new) for (_, old), (at, new) in zip(chains, chains[1:]) if old and old != new]
        expect(changes and all(new for _, _, new in changes), f"{name} ended, or was never renewed")
        return [at - lives[old][0] for at, old, _ in changes]

    def first_of(self, chain):
        """When this chain was shown first."""
        return self.when(lambda shown: chain in shown.values(), PATIENCE)

    def first(self, name, seconds=PATIENCE):
        """When this entry was shown first."""
        return self.when(lambda shown: name in shown, seconds)


class Probe:
    """New callers of a socket, one after the other until it is stopped: the longest that one took."""

    def __init__(self, agent, name):
        self.longest, self.is_over, self.count = 0, threading.Event(), 0
        self.thread = threading.Thread(target=self.call_on, args=(agent, name), daemon=True)
        self.thread.start()

    def call_on(self, agent, name):
        while not self.is_over.wait(0.2):
            began = time.time()
            try:
                agent.fetch(name)
            except (OSError, bare.Ended):
                self.longest = 99
            self.longest, self.count = max(self.longest, time.time() - began), self.count + 1

    def stop(self):
        self.is_over.set()
        self.thread.join()
        expect(self.count > 1, "nobody was served meanwhile")
        return self.longest
