#!/usr/bin/python3
"""Measures the built agentd beside a server by grpc-go that sends ready bytes, or that makes each message anew, in one run: all
on Unix sockets, on one processor, under the same load from the others: by grpc-go's client, and by frames that are ready made, which
cost the client next to nothing. Usage: bench/serve/measure.py [SECONDS_OF_IDLE]

It needs Debian's gcc, golang-go, golang-google-grpc-dev, python3-grpcio and openssl, and at least two processors."""
import os
import pathlib
import signal
import subprocess
import sys
import tempfile
import time

HERE = pathlib.Path(__file__).resolve().parent
TOP = HERE.parent.parent
sys.path.insert(0, str(TOP / "tools"))
import agent
from messages import API, SECURITY

import grpc

GO = {**os.environ, "GOPATH": "/usr/share/gocode", "GO111MODULE": "off"}
SERVED = "0"
LOADING = f"1-{os.cpu_count() - 1}"
NEW, CALLS, WORKERS = 2_000, 10_000, 8
# how many times as many for the client of ready frames
FRAMES = 10
BROADCAST = 2_000
agent.AGENTD_WORDS = ["taskset", "-c", SERVED]
# 1.5 MB and 2.5 MB
LARGE = ["large.example", "larger.example"]
SOCKETS = {"web": (12, {"web": (3600, [])}), "large": (4, {"large": (3600, LARGE)}),
           "huge": (4, {"huge": (3600, LARGE + ["largest.example"])})}
ROTATING = {"rotating": (32, {"rotating": (4, [])})}
agent.BUNDLES["largest.example"] = 1_000_000


def built(folder, name):
    subprocess.run(["go", "build", "-o", f"{folder}/{name}", str(HERE / f"{name}.go")], check=True, env={**GO, "GOCACHE": f"{folder}/go"})
    return f"{folder}/{name}"


def built_frames(folder):
    subprocess.run(["gcc", "-O2", "-pthread", str(HERE / "frames.c"), "-o", f"{folder}/frames"], check=True)
    return f"{folder}/frames"


def processor_seconds(process):
    fields = pathlib.Path(f"/proc/{process.pid}/stat").read_text().rsplit(")", 1)[1].split()
    return (int(fields[11]) + int(fields[12])) / os.sysconf("SC_CLK_TCK")


def resident(process):
    return int(pathlib.Path(f"/proc/{process.pid}/statm").read_text().split()[1]) * os.sysconf("SC_PAGE_SIZE")


class Measured:
    """A server's process, and its loads."""

    def __init__(self, name, process, load, frames=None):
        self.name, self.process, self.load, self.frames = name, process, load, frames

    def run(self, what, socket, *words, load=None):
        before = processor_seconds(self.process)
        ran = subprocess.run(["taskset", "-c", LOADING, load or self.load, str(socket), *map(str, words)],
                             check=True, capture_output=True, text=True)
        used = processor_seconds(self.process) - before
        print(f"{self.name:8} {what:28} {ran.stdout.strip():>20}   processor {used:.2f} s   resident {resident(self.process) >> 20} MiB", flush=True)

    def run_frames(self, socket):
        for what, word, count in ("new connections", "new", NEW), ("calls", "calls", CALLS):
            self.run(f"{what}, by frames", socket, word, count * FRAMES, WORKERS, load=self.frames)

    def idle(self, socket, seconds):
        held = subprocess.Popen([self.load, str(socket), "hold", "10", "10"], stdin=subprocess.PIPE, stdout=subprocess.PIPE, text=True)
        held.stdout.readline()
        before = processor_seconds(self.process)
        time.sleep(seconds)
        used = processor_seconds(self.process) - before
        print(f"{self.name:8} {'100 streams, idle':28} {used / seconds * 100:17.2f} %")
        held.communicate("")


def message_of(socket):
    with grpc.insecure_channel(f"unix:{socket}", [("grpc.max_receive_message_length", 8_000_000)]) as opened:
        return next(opened.unary_stream(API + "FetchX509SVID")(b"", metadata=(SECURITY,), timeout=30, wait_for_ready=True))


def go_server(folder, name, message, *words):
    pathlib.Path(f"{folder}/{name}.bytes").write_bytes(message)
    socket = pathlib.Path(f"{folder}/{name}-go.sock")
    process = subprocess.Popen(["taskset", "-c", SERVED, f"{folder}/server", str(socket), f"{folder}/{name}.bytes", *words],
                               env={**os.environ, "GOMAXPROCS": "1"})
    while not socket.is_socket():
        time.sleep(0.01)
    return process, socket


def served_by(folder, sockets):
    agent.SOCKETS = sockets
    pathlib.Path(folder).mkdir()
    return agent.Agent(folder)


def messages(folder, load, frames, seconds):
    served = served_by(f"{folder}/messages", SOCKETS)
    others = []
    try:
        ours = Measured("agentd", served.agentd, load, frames)
        for name in SOCKETS:
            message = message_of(served.socket(name))
            made = [(ours, served.socket(name))]
            for kind, words in (("ready", []), ("copied", ["copied"])):
                process, socket = go_server(folder, f"{name}-{kind}", message, *words)
                others.append(process)
                made.append((Measured(kind, process, load, frames), socket))
            for it, at in made:
                if name == "huge":
                    it.run(f"16 streams, {len(message)} B", at, "burst", 10, 16)
                    continue
                scale, workers = (1, WORKERS) if name == "web" else (20, 4)
                it.run(f"new connections, {len(message)} B", at, "new", NEW // scale, workers)
                it.run(f"calls, {len(message)} B", at, "calls", CALLS // scale, workers)
                if name == "web":
                    it.run_frames(at)
                    it.idle(at, seconds)
    finally:
        for it in others:
            it.send_signal(signal.SIGKILL)
            it.wait()
        served.stop()


def spread(folder, load):
    served = served_by(f"{folder}/spread", ROTATING)
    process = None
    try:
        Measured("agentd", served.agentd, load).run("a rotation to 16 x 32", served.socket("rotating"), "spread", 32, 16)
        process, socket = go_server(folder, "rotating", message_of(served.socket("rotating")), str(BROADCAST))
        Measured("ready", process, load).run("a broadcast to 16 x 32", socket, "spread", 32, 16)
    finally:
        if process:
            process.send_signal(signal.SIGKILL)
            process.wait()
        served.stop()


def main():
    seconds = int(sys.argv[1]) if len(sys.argv) > 1 else 10
    with tempfile.TemporaryDirectory(prefix="serve-") as folder:
        load, frames = built(folder, "load"), built_frames(folder)
        built(folder, "server")
        messages(folder, load, frames, seconds)
        spread(folder, load)


if __name__ == "__main__":
    main()
