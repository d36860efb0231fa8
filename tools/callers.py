"""An agent with sockets of a test's own, and callers that are real users. It needs root and setpriv (util-linux)."""
import contextlib
import json
import os
import pathlib
import subprocess
import tempfile

from agent import AGENTD, DOMAIN, SECONDS, SIGNER, Agent
from canned import WLCTL, expect


def as_user(uid, *words, group=None):
    return ["setpriv", f"--reuid={uid}", f"--regid={group or uid}", "--clear-groups", *map(str, words)]


def called(at, uid=0):
    """The status of this user's fetch over a socket or at an address, and the SPIFFE IDs that it is given."""
    words = as_user(uid, WLCTL, "--socket", at, "fetch", "x509")
    done = subprocess.run(words, stdout=subprocess.PIPE, stderr=subprocess.PIPE, timeout=SECONDS)
    return done.returncode, [it.split()[1].decode() for it in done.stdout.splitlines() if it.startswith(b"svid ")]


def fetched(at, uid=0):
    """The SPIFFE IDs that this user is given, where the call ends with 0."""
    status, ids = called(at, uid)
    expect(status == 0, f"wlctl of {uid} at {at} ends with {status}")
    return ids


def identity(name):
    return [f"spiffe://{DOMAIN}/{name}"]


class Configured(Agent):
    """An agent with these sockets and these entries, each with its selector. The words stand before its own, as prlimit does."""

    def __init__(self, folder, sockets, entries, words=(), **more):
        self.folder, self.running, self.words = pathlib.Path(folder), {}, list(words)
        self.run(SIGNER, "ca", "ca", DOMAIN)
        made = [{"id": name, "spiffe_id": f"spiffe://{DOMAIN}/{name}", "selectors": [selector]} for name, selector in entries.items()]
        (self.folder / "entries.json").write_text(json.dumps(made))
        (self.folder / "node.json").write_bytes(self.run(SIGNER, "document", "ca", "entries.json"))
        self.configure(sockets, **more)
        self.start_signer()

    def configure(self, sockets, **more):
        config = {"version": 1, "document": "node.json", "signer": "signer.sock", "poll_seconds": 1, "sockets": sockets, **more}
        (self.folder / "agent.json").write_text(json.dumps(config))

    def serve(self, *names):
        self.start("agentd", [*self.words, AGENTD, "serve", "agent.json"], *names)

    def begin(self):
        """Starts the agent, and waits for nothing."""
        self.start("agentd", [*self.words, AGENTD, "serve", "agent.json"])

    def names(self):
        """The sockets that are there, and hidden folders."""
        return sorted(it.name for it in self.folder.iterdir() if it.name.startswith(".agentd") or it.is_socket())

    def outcome(self):
        """The status and the output of an agent that ends by itself; what it said is kept."""
        words = [*self.words, AGENTD, "serve", "agent.json"]
        done = subprocess.run(words, cwd=self.folder, stdin=subprocess.DEVNULL, capture_output=True, timeout=SECONDS)
        self.said = done.stderr.decode()
        return done.returncode, done.stdout.decode().strip()

    def log(self):
        return (self.folder / "log").read_text(errors="replace")

    def threads(self):
        return len(os.listdir(f"/proc/{self.agentd.pid}/task"))


@contextlib.contextmanager
def agent_of(sockets, entries, words=(), **more):
    with tempfile.TemporaryDirectory(prefix="callers-") as folder:
        os.chmod(folder, 0o755)
        agent = Configured(folder, sockets, entries, words, **more)
        try:
            yield agent
        finally:
            agent.stop()
