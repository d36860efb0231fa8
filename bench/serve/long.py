#!/usr/bin/python3
"""Long messages, by turns in one run: what each server's processor takes to send 16 streams of one connection 2.5 MB each, and then 4
connections 1.5 MB each. Usage: bench/serve/long.py TURNS [AGENTD..]

Without words the built agentd, else these programs, beside a server by grpc-go that sends ready bytes, and one that makes each message
anew. It needs what measure.py needs. All share one processor; the load comes from the others."""
import pathlib
import signal
import statistics
import subprocess
import sys
import tempfile

HERE = pathlib.Path(__file__).resolve().parent
sys.path[:0] = [str(HERE), str(HERE.parent.parent / "tools")]
import agent
from measure import LOADING, SOCKETS, built, go_server, message_of, processor_seconds, served_by

# what each turn sends: the socket, what the client does, and how often
KINDS = [("16 streams of one connection", "huge", ["burst", "20", "16"]), ("calls on 4 open connections", "large", ["calls", "200", "4"])]


def turn(load, process, socket, words):
    before = processor_seconds(process)
    subprocess.run(["taskset", "-c", LOADING, load, str(socket), *words], check=True, stdout=subprocess.DEVNULL)
    return processor_seconds(process) - before


def main():
    turns, programs = int(sys.argv[1]), sys.argv[2:] or [agent.AGENTD]
    with tempfile.TemporaryDirectory(prefix="long-") as folder:
        load = built(folder, "load")
        built(folder, "server")
        agents, others, took = [], [], {}
        try:
            for at, program in enumerate(programs):
                agent.AGENTD = program
                agents.append((program, served_by(f"{folder}/{at}", SOCKETS)))
            for what, name, words in KINDS:
                message = message_of(agents[0][1].socket(name))
                servers = [(program, it.agentd, it.socket(name)) for program, it in agents]
                for kind in ("ready", "copied"):
                    process, socket = go_server(folder, f"{name}-{kind}", message, *([kind] if kind == "copied" else []))
                    others.append(process)
                    servers.append((f"grpc-go, {kind}", process, socket))
                for _ in range(turns):
                    for server, process, socket in servers:
                        took.setdefault((what, server), []).append(turn(load, process, socket, words))
        finally:
            for it in others:
                it.send_signal(signal.SIGKILL)
                it.wait()
            for _, it in agents:
                it.stop()
    for (what, server), seconds in took.items():
        print(f"| {what} | {server} | {statistics.median(seconds):.2f} ({min(seconds):.2f} to {max(seconds):.2f}) | {sum(seconds):.2f} |")


main()
