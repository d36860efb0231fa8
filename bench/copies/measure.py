#!/usr/bin/python3
"""How often the bytes of a long response are copied: by agentd, from the view of a caller to what is sent, and by wlctl, from what is
received to its message. Copies of the kernel are not counted. Usage: bench/copies/measure.py [CALLS]

It needs gcc and openssl."""
import os
import pathlib
import struct
import subprocess
import sys
import tempfile

HERE = pathlib.Path(__file__).resolve().parent
TOP = HERE.parent.parent
sys.path.insert(0, str(TOP / "tools"))
import agent

WLCTL = os.environ.get("WLCTL", str(TOP / "crates" / "wlctl" / "out" / "wlctl"))
agent.BUNDLES["largest.example"] = 1_000_000
agent.SOCKETS = {"huge": (4, {"huge": (3600, ["large.example", "larger.example", "largest.example"])})}


def copied(place):
    return struct.unpack("QQ", pathlib.Path(place).read_bytes())


def main():
    calls = int(sys.argv[1]) if len(sys.argv) > 1 else 20
    with tempfile.TemporaryDirectory(prefix="copies-") as folder:
        shim = f"{folder}/copies.so"
        subprocess.run(["gcc", "-O2", "-shared", "-fPIC", "-fno-builtin", "-o", shim, HERE / "copies.c", "-ldl"], check=True)
        agent.AGENTD_WORDS = ["env", f"COPIES={folder}/agentd", f"LD_PRELOAD={shim}"]
        served = agent.Agent(folder)
        try:
            call = [WLCTL, str(served.socket("huge")), "fetch", "x509"]
            text = subprocess.run(call, check=True, stdout=subprocess.PIPE).stdout
            # of the line's hexadecimal the bundle alone is long; the federated bundles are in the message and not in the line
            size = sum(agent.BUNDLES[it] for it in ("large.example", "larger.example", "largest.example"))
            before = copied(f"{folder}/agentd")
            for number in range(calls):
                env = {**os.environ, "COPIES": f"{folder}/wlctl-{number}", "LD_PRELOAD": shim}
                subprocess.run(call, check=True, stdout=subprocess.DEVNULL, env=env)
            after = copied(f"{folder}/agentd")
            ours = [(b - a) / calls / size for a, b in zip(before, after)]
            theirs = [sum(copied(f"{folder}/wlctl-{it}")[at] for it in range(calls)) / calls / size for at in (0, 1)]
            print(f"a response of {size} bytes and more, a line of {len(text)}, {calls} calls: times its bytes are copied")
            for name, (moved, grown) in (("agentd", ours), ("wlctl", theirs)):
                print(f"| {name} | {moved:.2f} by copies | {grown:.2f} by reallocs that move |")
        finally:
            served.stop()


main()
