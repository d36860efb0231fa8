#!/usr/bin/python3
"""Measures what a Check costs whose caller is entitled to many entries, beside one whose caller is entitled to one.
Usage: bench/serve/wide.py [ENTRIES [TURNS [AGENTD..]]]

Each turn starts each agent once: first with one entry and then with all of them. A connection stays open, since a thread without one
keeps no view. The signer is that of bench/serve/many.py."""
import pathlib
import statistics
import sys
import tempfile
import time

HERE = pathlib.Path(__file__).resolve().parent
sys.path[:0] = [str(HERE), str(HERE.parent.parent / "tools")]
import bare
import many

CHECK = "/grpc.health.v1.Health/Check"
CALLS = 1_000
END_HEADERS, END_STREAM = bare.END_HEADERS, bare.END_STREAM


narrow_entry = many.entry


def entry(number):
    return {**narrow_entry(number), "selectors": ["socket:web"]}


class Caller:
    """A connection that makes one call after the other."""

    def __init__(self, path):
        self.opened, self.stream = bare.connect(path, many.SECONDS), 1
        self.opened.sendall(bare.WIDE_GREETING)
        self.frames = bare.frames(self.opened)

    def check(self):
        self.opened.sendall(bare.frame(bare.HEADERS, END_HEADERS, self.stream, bare.head(CHECK))
                            + bare.frame(bare.DATA, END_STREAM, self.stream, bytes(5)))
        for kind, stream, payload in self.frames:
            if kind == bare.HEADERS and stream == self.stream and bare.status_in(payload) is not None:
                if bare.status_in(payload):
                    raise SystemExit(f"status {bare.status_in(payload)}")
                self.stream += 2
                return
        raise SystemExit("the connection ended")


def nanoseconds_of(process):
    """What its threads took of processors (proc(5), schedstat), which is finer than the ticks of stat."""
    return sum(int((it / "schedstat").read_text().split()[0]) for it in pathlib.Path(f"/proc/{process.pid}/task").iterdir())


def microseconds(agentd, work, calls=CALLS):
    """What a call of this work costs the agent's processor."""
    before = nanoseconds_of(agentd)
    for _ in range(calls):
        work()
    return (nanoseconds_of(agentd) - before) / calls / 1e3


def check_anew(path):
    caller = Caller(path)
    caller.check()
    caller.opened.close()


def measure(program, entries):
    many.AGENTD, many.entry = program, entry
    with tempfile.TemporaryDirectory(prefix="wide-") as name:
        folder = pathlib.Path(name)
        outside = many.Outside(folder, entries)
        agentd = many.serve(folder, "socket", 3600)
        try:
            before = -1
            while outside.identities != before:
                before = outside.identities
                time.sleep(1)
            held = Caller(folder / "web.sock")
            held.check()
            return microseconds(agentd, held.check), microseconds(agentd, lambda: check_anew(folder / "web.sock"))
        finally:
            agentd.terminate()
            agentd.wait()


def main():
    entries, turns = (int(sys.argv[it]) if len(sys.argv) > it else least for it, least in ((1, 9_999), (2, 3)))
    programs = sys.argv[3:] or [many.AGENTD]
    found = {}
    for _ in range(turns):
        for program in programs:
            for count in (1, entries):
                found.setdefault((program, count), []).append(measure(program, count))
    print("| agent | entries of the caller | microseconds of processor a Check on an open connection | on a new one |")
    print("|---|---|---|---|")
    for (program, count), rows in found.items():
        one, other = (f"{statistics.median(it):,.0f} ({min(it):,.0f} to {max(it):,.0f})" for it in zip(*rows))
        print(f"| {program} | {count:,} | {one} | {other} |")


if __name__ == "__main__":
    main()
