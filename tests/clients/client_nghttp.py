#!/usr/bin/python3
"""The calls of a client by nghttp, which speaks TCP alone: socat hands its bytes on to the agent's socket, on loopback.
Usage: client_nghttp.py FOLDER [CASE..]; a line for each case."""
import pathlib
import re
import subprocess
import sys
import tempfile
import time

sys.path.insert(0, str(pathlib.Path(__file__).resolve().parent.parent.parent / "tools"))
from cases import tell
from messages import API, HEALTH, SECURITY, jwt_request

FOLDER = pathlib.Path(sys.argv[1])
FIRST_PORT = 18_700
PORTS = {name: FIRST_PORT + at for at, name in enumerate(["web", "nobody", "large"])}


def nghttp(name, path, request=b"", metadata=(SECURITY,), seconds=3):
    """What it prints of the frames, and the body."""
    with tempfile.NamedTemporaryFile() as body:
        body.write(b"\0" + len(request).to_bytes(4, "big") + request)
        body.flush()
        heads = [("content-type", "application/grpc"), ("te", "trailers"), *metadata]
        words = ["nghttp", "-v", f"--timeout={seconds}", f"--data={body.name}", *[f"-H{k}: {v}" for k, v in heads]]
        ran = subprocess.run([*words, f"http://127.0.0.1:{PORTS[name]}{path}"], capture_output=True, timeout=60)
    return ran.stdout


def has(name, path, wanted, request=b""):
    return wanted in nghttp(name, path, request)


def status(name, path, metadata=(SECURITY,)):
    found = re.search(rb"grpc-status: (\d+)", nghttp(name, path, metadata=metadata))
    return int(found[1]) if found else None


def above_1_mib():
    lengths = re.findall(rb"recv DATA frame <length=(\d+)", nghttp("large", API + "FetchX509SVID", seconds=10))
    return sum(map(int, lengths)) > 1_048_576


CASES = {
    "x509": lambda: has("web", API + "FetchX509SVID", b"spiffe://example.org/web"),
    "x509_bundles": lambda: has("web", API + "FetchX509Bundles", b"spiffe://example.org"),
    "jwt": lambda: has("web", API + "FetchJWTSVID", b"spiffe://example.org/web", jwt_request("db")),
    "jwt_bundles": lambda: has("web", API + "FetchJWTBundles", b"keys"),
    "check": lambda: status("web", HEALTH + "Check") == 0,
    "watch": lambda: has("web", HEALTH + "Watch", b"\x08\x01"),
    "denied": lambda: status("nobody", API + "FetchX509SVID") == 7,
    "no_header": lambda: status("web", API + "FetchX509SVID", metadata=()) == 3,
    "above_1_mib": above_1_mib,
}


def main():
    hands = [subprocess.Popen(["socat", f"TCP-LISTEN:{port},bind=127.0.0.1,reuseaddr,fork", f"UNIX-CONNECT:{FOLDER}/{name}.sock"])
             for name, port in PORTS.items()]
    time.sleep(0.5)
    try:
        tell(CASES)
    finally:
        for it in hands:
            it.terminate()


main()
