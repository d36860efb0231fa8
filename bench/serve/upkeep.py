#!/usr/bin/python3
"""Measures upkeep at many entries, and a small call beside asks that wait for a signer.
Usage: bench/serve/upkeep.py [ENTRIES [TURNS]]

1. Four signers take 5 ms for each ask, and all entries are due at once. In the middle the document loses an entry, whose caller has an
   open stream: how long until all others have their identities, and how long until that stream ends.
2. A signer never answers for tokens, for which a hundred connections wait: what a Check of another connection costs, by turns alone and
   beside them.
The signer is that of bench/serve/many.py."""
import base64
import contextlib
import json
import pathlib
import statistics
import sys
import tempfile
import threading
import time

HERE = pathlib.Path(__file__).resolve().parent
sys.path[:0] = [str(HERE), str(HERE.parent.parent / "tools")]
import bare
import many
import messages
import wide

SIGNERS, ASK_SECONDS = 4, 0.005
CALLS, WAITING = 10_000, 100
# after ten seconds an exchange fails, and with it all asks that wait
MEASURED_SECONDS = 8
# a JWTSVIDRequest for the audience "x"
JWT_REQUEST = b"\x0a\x01x"


class SlowOutside(many.Outside):
    """Takes so long for each ask for an identity, and never answers for a token. It counts the identities that it gave."""

    given = 0

    def sign(self, peer):
        with peer, peer.makefile("rb") as lines:
            for line in lines:
                ask = json.loads(line)
                if ask["kind"] == "jwt":
                    threading.Event().wait()
                came, begin = time.monotonic(), int(time.time())
                end = begin + ask["ttl"]
                chain, key = many.certificate(ask["spiffe_id"], begin, end), bytes(138)
                answer = self.reply(ask, chain, key, begin, end)
                time.sleep(max(0, came + ASK_SECONDS - time.monotonic()))
                self.given += 1
                peer.sendall(answer)

    def reply(self, ask, chain, key, begin, end):
        said = {"chain": base64.b64encode(chain).decode(), "key": base64.b64encode(key).decode(), "not_before": begin, "not_after": end}
        if "number" in ask:
            said["number"] = ask["number"]
        return json.dumps(said).encode() + b"\n"


@contextlib.contextmanager
def agent_at(entries, poll):
    with tempfile.TemporaryDirectory(prefix="upkeep-") as name:
        folder = pathlib.Path(name)
        outside = SlowOutside(folder, entries)
        agentd = many.serve(folder, "file", poll, {"signers": SIGNERS})
        try:
            yield folder, outside, agentd
        finally:
            agentd.terminate()
            agentd.wait()


def put_without_first(folder, document):
    said = json.loads(document)
    said["entries"] = said["entries"][1:]
    (folder / "next.json").write_text(json.dumps(said))
    (folder / "next.json").rename(folder / "node.json")


def due_at_once(entries):
    with agent_at(entries, 1) as (folder, outside, _):
        begin = time.monotonic()
        opened = bare.connect(folder / "web.sock", many.SECONDS)
        bare.call(opened, messages.API + "FetchX509SVID")
        answers = bare.messages(opened)
        next(answers)
        while outside.given < entries / 2:
            time.sleep(0.01)
        put_without_first(folder, outside.document)
        removed = time.monotonic()
        with contextlib.suppress(bare.Ended):
            for _ in answers:
                pass
        gone = time.monotonic() - removed
        before = -1
        while outside.given != before:
            before, ready = outside.given, time.monotonic() - begin
            time.sleep(0.5)
        return ready, gone


def waiting_caller(path):
    opened = bare.connect(path, many.SECONDS)
    bare.call(opened, messages.API + "FetchJWTSVID", JWT_REQUEST)
    return opened


def beside_asks(turns):
    alone, beside = [], []
    for _ in range(turns):
        with agent_at(1, 3600) as (folder, outside, agentd):
            while not outside.given:
                time.sleep(0.1)
            caller = wide.Caller(folder / "web.sock")
            caller.check()
            alone.append(wide.microseconds(agentd, caller.check, CALLS))
            begin = time.monotonic()
            held = [waiting_caller(folder / "web.sock") for _ in range(WAITING)]
            time.sleep(0.5)
            beside.append(wide.microseconds(agentd, caller.check, CALLS))
            if time.monotonic() - begin > MEASURED_SECONDS:
                print("too slow: the asks may have failed meanwhile", file=sys.stderr)
            for it in held:
                it.close()
    return alone, beside


def main():
    entries, turns = (int(sys.argv[it]) if len(sys.argv) > it else least for it, least in ((1, 10_000), (2, 5)))
    ready, gone = due_at_once(entries)
    print(f"{entries:,} entries due at once, {SIGNERS} signers of {ASK_SECONDS * 1000:.0f} ms: all there after {ready:.1f} s; "
          f"the stream of a removed entry ended after {gone:.2f} s, with poll_seconds 1")
    alone, beside = beside_asks(turns)
    print("| a Check | microseconds of processor |")
    print("|---|---|")
    for name, found in (("alone", alone), (f"beside {WAITING} asks that wait", beside)):
        print(f"| {name} | {statistics.median(found):.1f} ({min(found):.1f} to {max(found):.1f}) |")
    print(f"times: {statistics.median(beside) / statistics.median(alone):.2f}")


if __name__ == "__main__":
    main()
