#!/usr/bin/python3
"""Measures the built agentd at many entries: its memory beside the data that it holds, calls, and an idle agent.
Usage: bench/serve/many.py [ENTRIES [SECONDS_OF_IDLE]]

The signer stands in this script and answers at once: its certificates have the form that the agent reads, and no real
signature. It needs Debian's golang-go and golang-google-grpc-dev."""
import base64
import json
import os
import pathlib
import socket
import subprocess
import sys
import tempfile
import threading
import time

HERE = pathlib.Path(__file__).resolve().parent
AGENTD = os.environ.get("AGENTD", str(HERE.parent.parent / "crates" / "agentd" / "out" / "agentd"))
GO = {**os.environ, "GOPATH": "/usr/share/gocode", "GO111MODULE": "off"}
DOMAIN = "example.org"
SERVED, WAITING = 32, 68
# how long a client waits for what comes
SECONDS = 60
# on four connections, each call of five frames or more of the client
CALLS = 200_000
SPKI = bytes.fromhex("3059301306072a8648ce3d020106082a8648ce3d030107034200") + bytes([4]) + bytes(range(64))
ECDSA = bytes.fromhex("300a06082a8648ce3d040302")


def der(tag, *parts):
    content = b"".join(parts)
    size = len(content)
    length = bytes([size]) if size < 128 else bytes([0x81, size]) if size < 256 else bytes([0x82, size >> 8, size & 255])
    return bytes([tag]) + length + content


def utc(seconds):
    return der(0x17, time.strftime("%y%m%d%H%M%SZ", time.gmtime(seconds)).encode())


def certificate(uri, begin, end):
    name = der(0x30, der(0x31, der(0x30, bytes.fromhex("060355040a"), der(0x0c, b"sample CA"))))
    names = der(0x30, bytes.fromhex("0603551d11"), der(0x04, der(0x30, der(0x86, uri.encode()))))
    usage = der(0x30, bytes.fromhex("0603551d0f0101ff"), der(0x04, bytes.fromhex("03020388")))
    tbs = der(0x30, bytes.fromhex("a003020102"), der(0x02, begin.to_bytes(8, "big")), ECDSA, name,
              der(0x30, utc(begin), utc(end)), name, SPKI, der(0xa3, der(0x30, usage, names)))
    return der(0x30, tbs, ECDSA, der(0x03, bytes(72)))


def entry(number):
    place = "web" if number == 0 else f"e{number}"
    return {"id": f"entry-{number}", "spiffe_id": f"spiffe://{DOMAIN}/ns/default/sa/{number}",
            "selectors": [f"socket:{place}", f"unix:uid:{number}"] if number else ["socket:web"], "ttl": 86_400}


def listening(path):
    server = socket.socket(socket.AF_UNIX)
    server.bind(str(path))
    server.listen()
    return server


class Outside:
    """An upstream and a signer, and how many bytes of identities were handed out."""

    def __init__(self, folder, entries):
        self.folder, self.identities = folder, 0
        bundle = {"trust_domain": DOMAIN, "x509": base64.b64encode(bytes(600)).decode()}
        document = {"version": 2, "trust_domain": DOMAIN, "bundles": [bundle], "entries": [entry(it) for it in range(entries)]}
        self.document = json.dumps(document).encode()
        (folder / "node.json").write_bytes(self.document)
        for name, work in (("authority", self.give), ("signer", self.sign)):
            threading.Thread(target=self.accept, args=(listening(folder / f"{name}.sock"), work), daemon=True).start()

    def accept(self, server, work):
        while True:
            peer, _ = server.accept()
            threading.Thread(target=work, args=(peer,), daemon=True).start()

    def give(self, peer):
        with peer:
            peer.sendall(self.document)

    def sign(self, peer):
        with peer, peer.makefile("rb") as lines:
            for line in lines:
                ask = json.loads(line)
                begin = int(time.time())
                end = begin + ask["ttl"]
                chain, key = certificate(ask["spiffe_id"], begin, end), bytes(138)
                self.identities += len(chain) + len(key)
                reply = {"chain": base64.b64encode(chain).decode(), "key": base64.b64encode(key).decode(),
                         "not_before": begin, "not_after": end}
                peer.sendall(json.dumps(reply).encode() + b"\n")


def resident(process):
    return int(pathlib.Path(f"/proc/{process.pid}/statm").read_text().split()[1]) * os.sysconf("SC_PAGE_SIZE")


def processor_seconds(process):
    fields = pathlib.Path(f"/proc/{process.pid}/stat").read_text().rsplit(")", 1)[1].split()
    return (int(fields[11]) + int(fields[12])) / os.sysconf("SC_CLK_TCK")


def serve(folder, source, poll, more={}):
    sockets = [{"path": str(folder / "web.sock"), "workers": SERVED, "selectors": ["socket:web"]}]
    place = {"upstream": str(folder / "authority.sock")} if source == "socket" else {"document": str(folder / "node.json")}
    config = {"version": 1, **place, "signer": str(folder / "signer.sock"), "poll_seconds": poll, "sockets": sockets, **more}
    (folder / "agent.json").write_text(json.dumps(config))
    process = subprocess.Popen([AGENTD, "serve", "agent.json"], cwd=folder, stdin=subprocess.DEVNULL, stderr=subprocess.DEVNULL)
    while not (folder / "web.sock").is_socket():
        time.sleep(0.01)
    return process


def measure(folder, load, entries, source, poll, seconds):
    outside = Outside(folder, entries)
    begin = time.monotonic()
    agentd = serve(folder, source, poll)
    held = None
    try:
        before = -1
        while outside.identities != before:
            before = outside.identities
            time.sleep(1)
        ready = time.monotonic() - begin - 1
        signed = processor_seconds(agentd)
        few = resident(agentd)
        calls = subprocess.run([load, str(folder / "web.sock"), "calls", str(CALLS), "4"], check=True, capture_output=True, text=True)
        spent = processor_seconds(agentd) - signed
        grown = resident(agentd) - few
        held = subprocess.Popen([load, str(folder / "web.sock"), "hold", str(SERVED), "4"], stdin=subprocess.PIPE, stdout=subprocess.PIPE, text=True)
        held.stdout.readline()
        waiting = [socket.socket(socket.AF_UNIX) for _ in range(WAITING)]
        for it in waiting:
            it.connect(str(folder / "web.sock"))
        at_rest = processor_seconds(agentd)
        time.sleep(seconds)
        idle = (processor_seconds(agentd) - at_rest) / seconds * 100
        live = outside.identities + len(outside.document)
        print(f"| {entries} | {source} | {poll} | {ready:.1f} | {signed:.2f} | {float(calls.stdout.split()[1]):.0f} | {spent / CALLS * 1e6:.0f} | {grown / 1e6:.1f} "
              f"| {idle:.2f} | {live / 1e6:.1f} | {resident(agentd) / 1e6:.1f} |", flush=True)
    finally:
        if held:
            held.communicate("")
        agentd.terminate()
        agentd.wait()


def main():
    entries = int(sys.argv[1]) if len(sys.argv) > 1 else 10_000
    seconds = int(sys.argv[2]) if len(sys.argv) > 2 else 20
    print("| entries | document from a | poll_seconds | all signed after, s | processor till then, s | calls a second | microseconds of processor a call "
          "| grown by, MB | idle, % | document and identities, MB | resident, MB |")
    print("|---|---|---|---|---|---|---|---|---|---|---|")
    with tempfile.TemporaryDirectory(prefix="many-") as folder:
        load = f"{folder}/load"
        subprocess.run(["go", "build", "-o", load, str(HERE / "load.go")], check=True, env={**GO, "GOCACHE": f"{folder}/go"})
        for count, source, poll in ((10, "socket", 3600), (entries, "socket", 3600), (entries, "socket", 1), (entries, "file", 1)):
            place = pathlib.Path(folder) / f"{count}-{source}-{poll}"
            place.mkdir()
            measure(place, load, count, source, poll, seconds)


if __name__ == "__main__":
    main()
