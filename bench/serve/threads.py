#!/usr/bin/python3
"""Measures what more threads give: agents of one, two and four threads, by turns, under ready frames at four sockets at once. Each line has
the calls a second, and the agent's processor time for a call, in all its threads together.
Usage: bench/serve/threads.py [ROUNDS]

An agent has as many processors as threads while others are left for the load; on a machine of four processors one of four threads shares
them with it. So the processor time for a call tells what four threads would do with a processor each. It needs root and gcc."""
import json
import os
import pathlib
import statistics
import subprocess
import sys
import tempfile
import time

HERE = pathlib.Path(__file__).resolve().parent
sys.path[:0] = [str(HERE), str(HERE.parent.parent / "tools")]
from agent import AGENTD
from reach import LONG, Outside

SOCKETS, THREADS, CALLS, WORKERS = 4, (1, 2, 4), 60_000, 8
TICK = os.sysconf("SC_CLK_TCK")


def processors(threads):
    """Those of the agent, and those of the load."""
    every = list(map(str, sorted(os.sched_getaffinity(0))))
    own = min(threads, max(1, len(every) - 1))
    if threads >= len(every):
        return ",".join(every), ",".join(every)
    return ",".join(every[:own]), ",".join(every[own:])


class Running:
    def __init__(self, folder, threads):
        self.folder, self.threads = folder, threads
        sockets = [{"path": f"{threads}-{it}.sock", "selectors": ["node:this"], "connections": 64} for it in range(SOCKETS)]
        config = {"version": 1, "document": "node.json", "signer": "signer.sock", "poll_seconds": 3600, "threads": threads, "sockets": sockets}
        (folder / f"{threads}.json").write_text(json.dumps(config))
        own, self.others = processors(threads)
        words = ["taskset", "-c", own, AGENTD, "serve", f"{threads}.json"]
        self.process = subprocess.Popen(words, cwd=folder, stdin=subprocess.DEVNULL, stderr=subprocess.DEVNULL)
        while not (folder / f"{threads}-{SOCKETS - 1}.sock").is_socket():
            time.sleep(0.01)

    def spent(self):
        """Seconds of processors so far."""
        fields = pathlib.Path(f"/proc/{self.process.pid}/stat").read_text().rpartition(")")[2].split()
        return (int(fields[11]) + int(fields[12])) / TICK

    def serve(self, frames):
        """Calls a second, and microseconds of processors for a call."""
        before, began = self.spent(), time.monotonic()
        load = [subprocess.Popen(["taskset", "-c", self.others, frames, str(self.folder / f"{self.threads}-{it}.sock"), "calls", str(CALLS),
                                  str(WORKERS)], stdout=subprocess.DEVNULL) for it in range(SOCKETS)]
        for it in load:
            if it.wait() != 0:
                raise SystemExit("a load has failed")
        calls = SOCKETS * CALLS
        return calls / (time.monotonic() - began), (self.spent() - before) / calls * 1e6


def said(found, digits):
    return f"{statistics.median(found):,.{digits}f} ({min(found):,.{digits}f} to {max(found):,.{digits}f})"


def main():
    rounds = int(sys.argv[1]) if len(sys.argv) > 1 else 5
    with tempfile.TemporaryDirectory(prefix="threads-") as name:
        folder, agents = pathlib.Path(name), []
        frames = str(folder / "frames")
        subprocess.run(["gcc", "-O2", "-pthread", str(HERE / "frames.c"), "-o", frames], check=True)
        Outside(folder, LONG, LONG)
        try:
            agents = [Running(folder, it) for it in THREADS]
            found = {it: [] for it in THREADS}
            for turn in range(rounds):
                for it in agents[turn % 3:] + agents[:turn % 3]:
                    found[it.threads].append(it.serve(frames))
        finally:
            for it in agents:
                it.process.terminate()
                it.process.wait()
    one = statistics.median(time for _, time in found[1])
    for it in THREADS:
        rates, times = zip(*found[it])
        scale = it * one / statistics.median(times)
        print(f"| {it} | {said(rates, 0)} | {said(times, 1)} | {scale:.2f} |")


main()
