"""What the tries of servers on an SVID share: an authority, a signer and an agent in a folder of its own, `serve` of the example, and a
client that opens one connection after another, each with its SVID, and verifies the server's, while the agent gives a new SVID twice.

AGENTD and WLCTL name other programs than those of this checkout."""
import json
import os
import pathlib
import signal
import socket
import ssl
import subprocess
import sys
import time

ROOT = pathlib.Path(__file__).resolve().parent.parent
AGENTD = os.environ.get("AGENTD", f"{ROOT}/crates/agentd/out/agentd")
WLCTL = os.environ.get("WLCTL", f"{ROOT}/crates/wlctl/out/wlctl")
SIGNER = f"{ROOT}/examples/signer"
NAME = "web.example.org"
ENTRIES = [{"id": "web", "spiffe_id": "spiffe://example.org/web", "selectors": ["unix:uid:1000"], "dns_names": [NAME]}]
AGENT = {"version": 1, "upstream": "authority.sock", "signer": "signer.sock", "poll_seconds": 1,
         "sockets": [{"path": "web.sock", "workers": 4, "selectors": ["unix:uid:1000"]}]}
TURNS = 2


class Parts:
    """The processes of the try, which end with it."""

    def __init__(self):
        self.log, self.running = open("parts.log", "ab"), []

    def start(self, socket_path, *words):
        it = subprocess.Popen(words, stdin=subprocess.DEVNULL, stdout=self.log, stderr=self.log, env={**os.environ, "WLCTL": WLCTL})
        self.running.append(it)
        for _ in range(300):
            if not socket_path or os.path.exists(socket_path):
                return it
            if it.poll() is not None:
                break
            time.sleep(0.1)
        sys.exit(f"{words[0]} did not start: see parts.log")

    def stop(self, it):
        it.send_signal(signal.SIGTERM)
        it.wait(timeout=20)
        self.running.remove(it)

    def stop_all(self):
        for it in reversed(list(self.running)):
            self.stop(it)


def handshake(address, ask_for_tls):
    """Opens one connection with TLS: the server's certificate, in DER. The set that `..data` names is read as one."""
    now = f"identity/{os.readlink('identity/..data')}"
    context = ssl.create_default_context(cafile=f"{now}/bundle.pem")
    context.load_cert_chain(f"{now}/svid.pem", f"{now}/key.pem")
    with socket.create_connection(address, timeout=10) as plain:
        ask_for_tls(plain)
        with context.wrap_socket(plain, server_hostname=NAME) as secure:
            return secure.getpeercert(binary_form=True)


def wait_for(connect):
    for _ in range(600):
        try:
            return connect()
        except OSError:
            time.sleep(0.1)
    sys.exit("the server did not come up: see parts.log")


def load(parts, agent, connect, seconds):
    """Opens connections, and gives the agent a new start after each third of the time: counts, faults, certificates."""
    began, count, faults, seen, turns = time.monotonic(), 0, [], [], 0
    while time.monotonic() - began < seconds:
        try:
            certificate = connect()
            if certificate not in seen:
                seen.append(certificate)
        except (OSError, ssl.SSLError) as fault:
            faults.append(str(fault))
        count += 1
        if turns < TURNS and time.monotonic() - began > (turns + 1) * seconds / (TURNS + 1):
            parts.stop(agent)
            agent = parts.start("web.sock", AGENTD, "serve", "agent.json")
            turns += 1
        time.sleep(0.02)
    return count, faults, seen


def prepare(folder):
    """Goes into the folder, and writes there what an authority, a signer and an agent need."""
    folder.mkdir(parents=True, exist_ok=True)
    os.chdir(folder)
    os.umask(0o077)
    for left in pathlib.Path(".").glob("*.sock"):
        left.unlink()
    pathlib.Path("entries.json").write_text(json.dumps(ENTRIES))
    pathlib.Path("agent.json").write_text(json.dumps(AGENT))
    subprocess.run([SIGNER, "ca", "ca", "example.org"], check=True)
    with open("node.json", "wb") as document:
        subprocess.run([SIGNER, "document", "ca", "entries.json"], stdout=document, check=True)


def try_server(words, serve, connect, say, page):
    """Has `serve` run in the folder that the words name, for as many seconds as they say. `say` prints what else was seen. It ends with 0
    where the client saw an SVID more than there were new ones, and no handshake failed."""
    if not 1 <= len(words) <= 2:
        sys.exit(page)
    prepare(pathlib.Path(words[0]))
    parts = Parts()
    try:
        parts.start("signer.sock", SIGNER, "serve", "ca", "signer.sock")
        parts.start("authority.sock", SIGNER, "upstream", "node.json", "authority.sock")
        agent = parts.start("web.sock", AGENTD, "serve", "agent.json")
        parts.start("", serve, "web.sock", ".")
        wait_for(connect)
        say()
        count, faults, seen = load(parts, agent, connect, float(words[1]) if len(words) > 1 else 40)
    finally:
        parts.stop_all()
    print(f"{count} handshakes, {len(faults)} failed, {len(seen)} SVIDs seen", *faults[:5], sep="\n")
    sys.exit(0 if not faults and len(seen) == TURNS + 1 else 1)
