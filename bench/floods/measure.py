#!/usr/bin/python3
"""What frames cost that agentd doesn't count as floods: for each kind, so many on one connection, and the processor time and the
memory that the agent takes for them. Usage: bench/floods/measure.py [FRAMES [CALLS]]

It needs openssl. AGENTD names another program than crates/agentd/out/agentd."""
import contextlib
import os
import pathlib
import shutil
import sys
import tempfile
import threading

HERE = pathlib.Path(__file__).resolve().parent
TOP = HERE.parent.parent
sys.path[:0] = [str(TOP / "tools"), str(TOP / "tests" / "clients")]
FRAMES, CALLS = [int(it) for it in sys.argv[1:] + ["1000000", "20000"][len(sys.argv) - 1:]]
FOLDER = tempfile.mkdtemp(prefix="floods-")
# the clients take the folder of the sockets from the words
sys.argv[1:] = [FOLDER]
import agent
from client_hostile import (DATA, END_HEADERS, END_STREAM, GREETING, HEAD, HEADERS, PING, RST_STREAM, SECONDS, WINDOW_UPDATE, connect,
                            frame, frames)

PRIORITY, UNKNOWN = 2, 250
AT_ONCE = 65_536
agent.SOCKETS = {"web": (4, {"web": (3600, [])})}
agent.BUNDLES = {}


def processor_seconds(pid):
    fields = pathlib.Path(f"/proc/{pid}/stat").read_text().rsplit(")", 1)[1].split()
    return (int(fields[11]) + int(fields[12])) / os.sysconf("SC_CLK_TCK")


def count_answers(opened, counted, answered):
    """Reads all that comes, until the answer to the last PING: the agent has read all before it by then."""
    last = b""
    with contextlib.suppress(OSError):
        while b"the last" not in last:
            piece = opened.recv(AT_ONCE)
            counted.append(len(piece))
            last = (last + piece)[-64:] if piece else b"the last"
    answered.set()


def frames_of(unit, count, served):
    """Sends so many frames of one kind on one connection. Returns the bytes that went and that came."""
    counted, answered, a_time = [], threading.Event(), AT_ONCE // len(unit)
    with connect("web") as opened:
        threading.Thread(target=count_answers, args=(opened, counted, answered), daemon=True).start()
        opened.sendall(GREETING)
        for begin in range(0, count, a_time):
            opened.sendall(unit * min(a_time, count - begin))
        opened.sendall(frame(PING, 0, 0, b"the last"))
        if not answered.wait(SECONDS):
            raise SystemExit("the agent has not answered the last PING")
    return len(unit) * count, sum(counted)


def answered_resets(count, served):
    """Calls each of which is reset once its message has come."""
    sent, received = 0, 0
    with connect("web") as opened:
        opened.sendall(GREETING + frame(WINDOW_UPDATE, 0, 0, (2**30).to_bytes(4, "big")))
        came = frames(opened)
        for stream in range(1, 2 * count, 2):
            call = frame(HEADERS, END_HEADERS, stream, HEAD) + frame(DATA, END_STREAM, stream, bytes(5))
            opened.sendall(call)
            for kind, number, payload in came:
                received += 9 + len(payload)
                if (kind, number) == (DATA, stream):
                    break
            else:
                raise SystemExit(f"the agent ended the connection at stream {stream}")
            reset = frame(RST_STREAM, 0, stream, (8).to_bytes(4, "big"))
            opened.sendall(reset)
            sent += len(call) + len(reset)
    return sent, received


KINDS = {
    "PING": lambda served: frames_of(frame(PING, 0, 0, bytes(8)), FRAMES, served),
    "WINDOW_UPDATE": lambda served: frames_of(frame(WINDOW_UPDATE, 0, 0, (1).to_bytes(4, "big")), FRAMES, served),
    "PRIORITY": lambda served: frames_of(frame(PRIORITY, 0, 1, bytes(5)), FRAMES, served),
    "unknown type": lambda served: frames_of(frame(UNKNOWN), FRAMES, served),
    "answered calls, each reset": lambda served: answered_resets(CALLS, served),
}


def main():
    served = agent.Agent(FOLDER)
    try:
        print("| frames | how many | bytes sent, each | bytes answered, each | agent's processor, each | its memory after |")
        print("|---|---|---|---|---|---|")
        for name, run in KINDS.items():
            count = CALLS if "calls" in name else FRAMES
            before = processor_seconds(served.agentd.pid)
            sent, received = run(served)
            used = processor_seconds(served.agentd.pid) - before
            print(f"| {name} | {count:,} | {sent / count:.0f} | {received / count:.0f} | {used / count * 1e6:.2f} µs "
                  f"| {served.resident() / 2**20:.1f} MiB |", flush=True)
    finally:
        served.stop()
        shutil.rmtree(FOLDER)


main()
