"""An agent of canned answers, for tests of wlctl's files: what it answers is set by the test."""
import base64
import contextlib
import json
import os
import pathlib
import re
import socket
import subprocess
import tempfile
import threading
import time

from bare import DATA, END_HEADERS, END_STREAM, HEADERS, PREFACE, SETTINGS, frame, frames, literal
from messages import API, field, varint_bytes

TOP = pathlib.Path(__file__).resolve().parent.parent
WLCTL = os.environ.get("WLCTL", str(TOP / "crates" / "wlctl" / "out" / "wlctl"))
SECONDS = 60
X509, TOKEN, JWT_BUNDLES, BUNDLES = (API + it for it in ("FetchX509SVID", "FetchJWTSVID", "FetchJWTBundles", "FetchX509Bundles"))
SHOP = "shop"
# no frame is longer where a client hasn't said more (RFC 9113, section 6.5.2)
FRAME = 16_384
# the number of `bundles` in an X509BundlesResponse
X509_BUNDLES = 2
# a line of the log: a time of RFC 3339 in UTC, a level and an event
LINE = re.compile(r"ts=\d{4}-\d\d-\d\dT\d\d:\d\d:\d\dZ level=(info|warn|error) event=([a-z_]+)( .*)?")


def expect(holds, text):
    if not holds:
        raise AssertionError(text)


def until(holds, text, seconds=SECONDS):
    end = time.monotonic() + seconds
    while not holds():
        expect(time.monotonic() < end, text)
        time.sleep(0.05)


def events(said):
    """Each line of a log: its level, and what stands from its event on."""
    lines = []
    for line in said.splitlines():
        found = LINE.fullmatch(line)
        expect(found, f"no line of a log: {line!r}")
        lines.append((found[1], line[found.start(2):]))
    return lines


def part(number, data):
    return bytes([number << 3 | 2]) + varint_bytes(len(data)) + data


def sequence(number):
    """A SEQUENCE of DER with this number, in place of a certificate."""
    return bytes([48, 3, 2, 1, number % 256])


def svid(spiffe_id, chain, key=b"\x30\0", bundle=b"\x30\0"):
    return part(1, part(1, spiffe_id) + part(2, chain) + part(3, key) + part(4, bundle))


def federated(domain, bundle):
    return part(3, part(1, domain) + part(2, bundle))


def bundle_of(domain, bundle):
    """An item of an X509BundlesResponse or, where the bundle is a text, of a JWTBundlesResponse; domain is an id or a name."""
    is_jwt = isinstance(bundle, str)
    return part(1 if is_jwt else X509_BUNDLES, part(1, domain) + part(2, bundle.encode() if is_jwt else bundle))


def x509_message(number):
    """An SVID of spiffe://a.b/web whose certificates are SEQUENCEs with this number."""
    return svid(b"spiffe://a.b/web", sequence(number))


def encoded(value):
    return base64.urlsafe_b64encode(json.dumps(value).encode()).rstrip(b"=").decode()


class Canned:
    """An agent at this socket. `message` and `x509_bundles` are what it answers, `bundles` is a JWTBundlesResponse, and `answer_token`
    gives the tokens for an audience, or the status of a refusal. Where `take_over` is set it does all that follows a call."""

    def __init__(self, path):
        self.asked, self.streams, self.life, self.made = [], [], 3600, 0
        self.number, self.answer_token, self.message, self.take_over = 1, self.fresh, None, None
        self.bundles = bundle_of(b"spiffe://c.d", "{}") + bundle_of(b"spiffe://a.b", '{"keys":[]}')
        self.x509_bundles = b""
        self.path = path
        self.listen()

    def listen(self):
        pathlib.Path(self.path).unlink(missing_ok=True)
        self.listening = socket.socket(socket.AF_UNIX)
        self.listening.bind(str(self.path))
        self.listening.listen(16)
        threading.Thread(target=self.accept, args=(self.listening,), daemon=True).start()

    def fresh(self, audience):
        """A token of its own; those for both audiences that are asked for together have one number."""
        self.made += audience == SHOP
        claims = {"aud": [audience], "exp": int(time.time()) + self.life, "made": self.made}
        return [f"{encoded({'alg': 'ES256'})}.{encoded(claims)}.c2ln"]

    def accept(self, listening):
        with contextlib.suppress(OSError):
            while True:
                threading.Thread(target=self.serve, args=(listening.accept()[0],), daemon=True).start()

    def serve(self, opened):
        with contextlib.suppress(OSError, AttributeError):
            preface = b""
            while len(preface) < len(PREFACE):
                preface += opened.recv(len(PREFACE) - len(preface))
            path = None
            for kind, _, payload in frames(opened):
                if kind == HEADERS:
                    path = next(it for it in (X509, TOKEN, JWT_BUNDLES, BUNDLES) if it.encode() in payload)
                if kind == DATA and path:
                    self.answer(opened, path, payload[5:])
                    path = None

    def answer(self, opened, path, request):
        audience = field(request, 1).decode() if path == TOKEN else ""
        self.asked.append((path, audience, time.monotonic()))
        opened.sendall(frame(SETTINGS) + frame(SETTINGS, 1))
        if self.take_over:
            return self.take_over(opened, path)
        if path == X509:
            self.streams.append(opened)
            return self.send(opened, self.x509(), is_first=True)
        if path in (JWT_BUNDLES, BUNDLES):
            return self.send(opened, self.bundles if path == JWT_BUNDLES else self.x509_bundles, is_first=True)
        given = self.answer_token(audience)
        if isinstance(given, int):
            return self.end(opened, given)
        message = b"".join(part(1, part(1, b"spiffe://a.b/web") + part(2, it.encode())) for it in given)
        self.send(opened, message, is_first=True)
        self.end(opened, 0)

    def x509(self):
        return x509_message(self.number) if self.message is None else self.message

    @staticmethod
    def send(opened, message, is_first=False):
        head = frame(HEADERS, END_HEADERS, 1, b"\x88" + literal(b"content-type", b"application/grpc"))
        framed = bytes(1) + len(message).to_bytes(4, "big") + message
        pieces = [framed[at:at + FRAME] for at in range(0, len(framed), FRAME)]
        opened.sendall((head if is_first else b"") + b"".join(frame(DATA, 0, 1, it) for it in pieces))

    @staticmethod
    def end(opened, status, text=b""):
        block = literal(b"grpc-status", str(status).encode()) + (literal(b"grpc-message", text) if text else b"")
        is_alone = b"\x88" + literal(b"content-type", b"application/grpc") if status else b""
        opened.sendall(frame(HEADERS, END_HEADERS | END_STREAM, 1, is_alone + block))

    def push(self):
        """A new message on the streams."""
        self.number += 1
        for it in list(self.streams):
            with contextlib.suppress(OSError):
                self.send(it, self.x509())

    def hang_up(self):
        """Ends each stream."""
        while self.streams:
            with contextlib.suppress(OSError):
                self.streams.pop().shutdown(socket.SHUT_RDWR)

    def calls(self, path):
        return [audience for it, audience, _ in list(self.asked) if it == path]


@contextlib.contextmanager
def agent():
    """A canned agent, and an empty folder."""
    with tempfile.TemporaryDirectory(prefix="canned-") as at:
        folder = pathlib.Path(at) / "files"
        folder.mkdir()
        canned = Canned(pathlib.Path(at) / "agent.sock")
        canned.folder = folder
        try:
            yield canned
        finally:
            canned.listening.close()


def called(*words, environment=None):
    """The status, the standard output and the standard error of wlctl with these words."""
    how = {"env": {**os.environ, **environment}} if environment else {}
    done = subprocess.run([WLCTL, *map(str, words)], capture_output=True, timeout=SECONDS, **how)
    return done.returncode, done.stdout.decode(), done.stderr.decode()


def written(canned, *words):
    """The status and the standard error of `fetch x509 --write` with these words."""
    status, out, said = called(canned.path, "fetch", "x509", "--write", canned.folder, *words)
    expect(out == "", f"standard output: {out!r}")
    return status, said


@contextlib.contextmanager
def kept(canned, *words):
    """`keep` with these words, and the path of what it says."""
    said = canned.folder.parent / "said"
    with open(said, "wb") as out:
        running = subprocess.Popen([WLCTL, str(canned.path), "keep", str(canned.folder), *words], stdin=subprocess.DEVNULL, stderr=out)
    try:
        yield said
        expect(running.poll() is None, f"keep has ended: {said.read_text()}")
    finally:
        running.kill()
        running.wait()


def files_in(folder):
    """The files of the set that is seen, by name, read through one open of its folder; none where there is no set."""
    try:
        at = os.open(pathlib.Path(folder) / "..data", os.O_PATH | os.O_DIRECTORY)
    except FileNotFoundError:
        return {}
    try:
        found = {}
        top = f"/proc/self/fd/{at}"
        for here, _, names in os.walk(top):
            for name in names:
                path = os.path.join(here, name)
                with open(path, encoding="utf-8") as it:
                    found[os.path.relpath(path, top)] = it.read()
        return found
    finally:
        os.close(at)


def set_of(folder):
    try:
        return os.readlink(pathlib.Path(folder) / "..data")
    except FileNotFoundError:
        return None


def run_cases(cases, only):
    """Runs these cases, or those of these names, a line for each: how many failed."""
    names = [it.__name__ for it in cases]
    if not set(only) <= set(names):
        raise SystemExit(f"cases: {' '.join(names)}")
    if not os.access(WLCTL, os.X_OK):
        raise SystemExit(f"{WLCTL} is not built yet")
    failed = 0
    for case in cases:
        if only and case.__name__ not in only:
            continue
        try:
            told = case()
            print(f"{case.__name__} ok {told or ''}".strip(), flush=True)
        except (Exception, SystemExit) as error:
            failed += 1
            print(f"{case.__name__} FAILED {type(error).__name__} {str(error)[:400]}", flush=True)
    return failed
