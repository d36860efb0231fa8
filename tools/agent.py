"""A whole agent in a folder of its own: the sample authority and signer of examples/, a document, and the built agentd."""
import base64
import json
import os
import pathlib
import signal
import subprocess
import time

TOP = pathlib.Path(__file__).resolve().parent.parent
SIGNER = TOP / "examples" / "signer"
AGENTD = os.environ.get("AGENTD", str(TOP / "crates" / "agentd" / "out" / "agentd"))
# how long a process may take to serve its socket, or to end
SECONDS = 30

# socket: its room, and the entries of its callers, each with its time to live, the domains with which it federates, and other members
SOCKETS = {
    "web": (12, {"web": (3600, [], {"dns_names": ["web.example.org", "api.example.org"], "hint": "internal"})}),
    "nobody": (2, {}),
    "rotating": (4, {"rotating": (4, [])}),
    "changing": (4, {"changing": (3600, [])}),
    "middle": (2, {"middle": (3600, ["middle.example"])}),
    "large": (4, {"large": (3600, ["large.example", "larger.example"])}),
    # a caller of this socket has three selectors (ROLES): it is entitled to `both` and `zone`, and not to `writer`
    "team": (2, {
        "both": (3600, [], {"selectors": ["role:reader", "socket:team"], "dns_names": ["both.example.org"], "hint": "team"}),
        "writer": (3600, [], {"selectors": ["role:writer", "socket:team"]}),
        "zone": (3600, [], {"selectors": ["zone:a"], "hint": "zone"}),
    }),
    "coming": (2, {}),
}
ROLES = {"team": ["role:reader", "zone:a"]}
BUNDLES = {"middle.example": 100_000, "large.example": 800_000, "larger.example": 700_000}
DOMAIN = "example.org"
# what stands before the agent's own words, as taskset does
AGENTD_WORDS = []


def entry(name, ttl, federates, socket, more=None):
    return {"id": name, "spiffe_id": f"spiffe://{DOMAIN}/{name}", "selectors": [f"socket:{socket}"], "ttl": ttl,
            "federates_with": federates, **(more or {})}


class Agent:
    def __init__(self, folder):
        self.folder = pathlib.Path(folder)
        self.running = {}
        self.run(SIGNER, "ca", "ca", DOMAIN)
        self.run(SIGNER, "ca", "other", DOMAIN)
        self.entries = [entry(name, ttl, federates, socket, *more)
                        for socket, (_, all_) in SOCKETS.items() for name, (ttl, federates, *more) in all_.items()]
        self.write_document()
        sockets = [{"path": str(self.socket(it)), "connections": room, "selectors": [f"socket:{it}", *ROLES.get(it, [])]}
                   for it, (room, _) in SOCKETS.items()]
        config = {"version": 1, "upstream": str(self.socket("authority")), "signer": str(self.socket("signer")),
                  "poll_seconds": 1, "sockets": sockets}
        (self.folder / "agent.json").write_text(json.dumps(config))
        self.start_signer()
        self.start_authority()
        self.start_agentd()

    def socket(self, name):
        return self.folder / f"{name}.sock"

    def run(self, *words):
        return subprocess.run(words, cwd=self.folder, check=True, stdout=subprocess.PIPE, timeout=SECONDS).stdout

    def start(self, name, words, *sockets):
        """Starts this process, and waits until these sockets are there."""
        for it in sockets:
            self.socket(it).unlink(missing_ok=True)
        with open(self.folder / "log", "ab") as log:
            how = {"cwd": self.folder, "stdin": subprocess.DEVNULL, "stdout": log, "stderr": log}
            self.running[name] = subprocess.Popen(words, **how)
        until = time.monotonic() + SECONDS
        while not all(self.socket(it).is_socket() for it in sockets):
            if self.running[name].poll() is not None or time.monotonic() > until:
                self.stop()
                log = (self.folder / "log").read_text(errors="replace")
                raise SystemExit(f"{name} has ended, or served not all its sockets in {SECONDS} seconds:\n{log[-2000:]}")
            time.sleep(0.05)

    def start_signer(self):
        self.start("signer", [SIGNER, "serve", "ca", "signer.sock"], "signer")

    def start_authority(self):
        self.start("authority", [SIGNER, "upstream", "node.json", "authority.sock"], "authority")

    def start_agentd(self):
        self.start("agentd", [*AGENTD_WORDS, AGENTD, "serve", "agent.json"], *SOCKETS)

    @property
    def agentd(self):
        return self.running["agentd"]

    def end(self, name):
        it = self.running[name]
        it.send_signal(signal.SIGTERM)
        try:
            it.wait(SECONDS)
        except subprocess.TimeoutExpired:
            it.kill()
            it.wait()

    def restart_agentd(self):
        self.end("agentd")
        self.start_agentd()

    def write_document(self, more=(), bundle_of=("ca",)):
        """The document with these entries beside its own, and the bundle of these authorities. It takes the place of the old one in
        one step."""
        (self.folder / "entries.json").write_text(json.dumps(self.entries + list(more)))
        documents = {it: json.loads(self.run(SIGNER, "document", it, "entries.json")) for it in bundle_of}
        document = documents.pop("ca")
        [own] = document["bundles"]
        for it in documents:
            [other] = documents[it]["bundles"]
            own["x509"] = base64.b64encode(base64.b64decode(own["x509"]) + base64.b64decode(other["x509"])).decode()
            # each sample authority gives its key the same name
            more = [{**key, "kid": it} for key in json.loads(other["jwks"])["keys"]]
            own["jwks"] = json.dumps({"keys": json.loads(own["jwks"])["keys"] + more})
        root = base64.b64decode(own["x509"])
        for domain, size in BUNDLES.items():
            document["bundles"].append({"trust_domain": domain, "x509": base64.b64encode(root * (size // len(root) + 1)).decode()})
        (self.folder / "next.json").write_text(json.dumps(document))
        os.replace(self.folder / "next.json", self.folder / "node.json")

    def resident(self):
        """Resident memory of the agent, in bytes; 0 where it has ended."""
        try:
            pages = int(pathlib.Path(f"/proc/{self.agentd.pid}/statm").read_text().split()[1])
        except (OSError, IndexError):
            return 0
        return pages * os.sysconf("SC_PAGE_SIZE")

    def stop(self):
        for it in reversed(self.running):
            self.end(it)
