#!/usr/bin/python3
"""Measures what the log costs: built agents at the levels error, info and debug, whose log goes to a file, under ready frames, by turns
in one run. Each agent is on one processor, and the load on the others. Usage: bench/serve/log.py [ROUNDS]

It needs gcc and openssl, and at least two processors. AGENTD names another program."""
import json
import os
import pathlib
import statistics
import subprocess
import sys
import tempfile
import time

HERE = pathlib.Path(__file__).resolve().parent
TOP = HERE.parent.parent
AGENTD = os.environ.get("AGENTD", str(TOP / "crates" / "agentd" / "out" / "agentd"))
SIGNER = TOP / "examples" / "signer"
LEVELS = ("error", "info", "debug")
SERVED = "0"
LOADING = f"1-{os.cpu_count() - 1}"
WORKERS = 8
LOADS = {"calls": 100_000, "new": 20_000}
ENTRY = {"id": "web", "spiffe_id": "spiffe://example.org/web", "selectors": ["unix:uid:1"], "ttl": 3600}


def signed(folder, *words):
    return subprocess.run([SIGNER, *words], cwd=folder, check=True, capture_output=True).stdout


def make_document(folder):
    """A document whose one entry has its identity in it."""
    (folder / "entries.json").write_text(json.dumps([ENTRY]))
    signed(folder, "ca", "ca", "example.org")
    (folder / "node.json").write_bytes(signed(folder, "document", "ca", "entries.json"))


def start_signer(folder):
    return subprocess.Popen([SIGNER, "serve", "ca", "signer.sock"], cwd=folder, stdout=subprocess.DEVNULL, stderr=subprocess.DEVNULL)


def start_agent(folder, level):
    config = {"version": 1, "document": "node.json", "signer": "signer.sock", "log": level,
              "sockets": [{"path": f"{level}.sock", "selectors": ["unix:uid:1"], "connections": 64}]}
    (folder / f"{level}.json").write_text(json.dumps(config))
    with open(folder / f"{level}.log", "wb") as log:
        return subprocess.Popen(["taskset", "-c", SERVED, AGENTD, "serve", f"{level}.json"], cwd=folder, stdout=subprocess.DEVNULL, stderr=log)


def rate(frames, folder, level, what):
    """Responses a second."""
    words = [frames, str(folder / f"{level}.sock"), what, str(LOADS[what]), str(WORKERS)]
    ran = subprocess.run(["taskset", "-c", LOADING, *words], check=True, capture_output=True, text=True)
    return float(ran.stdout.split()[1])


def measure(frames, folder, rounds):
    rates = {(what, level): [] for what in LOADS for level in LEVELS}
    for turn in range(rounds):
        for what in LOADS:
            for level in LEVELS[turn % 3:] + LEVELS[:turn % 3]:
                rates[what, level].append(rate(frames, folder, level, what))
    return rates


def show(rates):
    for (what, level), found in rates.items():
        mean, least = statistics.mean(found), statistics.mean(rates[what, "error"])
        print(f"{what:6} {level:6} {mean:10.0f} a second ({min(found):.0f} to {max(found):.0f}), {mean / least - 1:+.1%} beside error")


def main():
    rounds = int(sys.argv[1]) if len(sys.argv) > 1 else 12
    with tempfile.TemporaryDirectory(prefix="log-") as name:
        folder, running = pathlib.Path(name), []
        frames = str(folder / "frames")
        subprocess.run(["gcc", "-O2", "-pthread", str(HERE / "frames.c"), "-o", frames], check=True)
        make_document(folder)
        try:
            running.append(start_signer(folder))
            running += [start_agent(folder, level) for level in LEVELS]
            time.sleep(4)
            show(measure(frames, folder, rounds))
            lines = {level: (folder / f"{level}.log").read_bytes().count(b"\n") for level in LEVELS}
            print("lines of the log:", *(f"{level} {count}" for level, count in lines.items()))
        finally:
            for it in running:
                it.terminate()
                it.wait()


main()
