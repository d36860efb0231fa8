#!/usr/bin/python3
"""The calls of a client by python3-grpcio. Usage: client_grpcio.py FOLDER [CASE..]; a line for each case."""
import concurrent.futures
import json
import pathlib
import subprocess
import sys
import time

import grpc

sys.path.insert(0, str(pathlib.Path(__file__).resolve().parent.parent.parent / "tools"))
from messages import API, HEALTH, NOT_SERVING, SECURITY, SERVING, STREAMS, field, health_request, jwt_request, pairs, svids, tokens
from verified import certificates, check_token, check_x509, expect

FOLDER = pathlib.Path(sys.argv[1])
SECONDS = 20
X509, TOKEN = API + "FetchX509SVID", API + "FetchJWTSVID"
X509_BUNDLES, JWT_BUNDLES = API + "FetchX509Bundles", API + "FetchJWTBundles"
CHECK, WATCH = HEALTH + "Check", HEALTH + "Watch"
DOMAIN = "spiffe://example.org"
# what agent.py's document says of the entries
DNS_NAMES = {"web": ["web.example.org", "api.example.org"], "both": ["both.example.org"]}
HINTS = {"web": "internal", "both": "team", "zone": "zone"}
# what each socket's caller is entitled to, by entry id
ENTITLED = {"web": ["web"], "rotating": ["rotating"], "changing": ["changing"], "middle": ["middle"], "large": ["large"],
            "team": ["both", "zone"]}


def channel(name):
    options = [("grpc.use_local_subchannel_pool", 1), ("grpc.max_receive_message_length", 8_000_000)]
    return grpc.insecure_channel(f"unix:{FOLDER}/{name}.sock", options)


def call(opened, path, request=b"", metadata=(SECURITY,), seconds=SECONDS):
    kind = opened.unary_stream if path in STREAMS else opened.unary_unary
    return kind(path)(request, metadata=metadata, timeout=seconds)


def first(name, path, request=b"", metadata=(SECURITY,)):
    with channel(name) as opened:
        got = call(opened, path, request, metadata)
        return next(got) if path in STREAMS else got


def expect_refusal(code, details, *words, metadata=(SECURITY,)):
    try:
        first(*words, metadata=metadata)
    except grpc.RpcError as error:
        expect((error.code(), error.details()) == (code, details), f"refused by {error.code()} {error.details()!r}")
        return
    expect(False, "not refused")


def change(what):
    """Asks the script that runs the agent for this change, by a line; it answers with one when it is made."""
    print(f"change {what}", flush=True)
    expect(sys.stdin.readline() == "\n", f"the change {what} was not made")


def check_own(svid, name):
    check_x509(svid, f"{DOMAIN}/{name}", DNS_NAMES.get(name, ()), HINTS.get(name, ""))


def check_own_token(given, jwks, name, *audience):
    check_token(given, jwks, f"{DOMAIN}/{name}", audience, HINTS.get(name, ""))


def own_jwks(name):
    return pairs(first(name, JWT_BUNDLES), 1)[DOMAIN]


def x509():
    (svid,) = svids(first("web", X509))
    check_own(svid, "web")


def own_sockets():
    for socket, names in ENTITLED.items():
        given = svids(first(socket, X509))
        expect([it.spiffe_id for it in given] == [f"{DOMAIN}/{it}" for it in names], f"{socket} got {[it.spiffe_id for it in given]}")
        for svid, name in zip(given, names):
            if socket != "rotating":
                check_own(svid, name)


def x509_bundles():
    (svid,) = svids(first("web", X509))
    expect(pairs(first("web", X509_BUNDLES), 2) == {DOMAIN: svid.bundle}, "another bundle than the SVID's")
    federated = pairs(first("middle", X509_BUNDLES), 2)
    expect(sorted(federated) == [DOMAIN, "spiffe://middle.example"], f"bundles of {sorted(federated)}")


def jwt():
    (given,) = tokens(first("web", TOKEN, jwt_request("db", "cache")))
    check_own_token(given, own_jwks("web"), "web", "db", "cache")


def jwt_ids():
    jwks, denied = own_jwks("team"), (grpc.StatusCode.PERMISSION_DENIED, "no identity issued")
    given = tokens(first("team", TOKEN, jwt_request("db")))
    expect(len(given) == 2, f"{len(given)} tokens")
    for it, name in zip(given, ("both", "zone")):
        check_own_token(it, jwks, name, "db")
    (given,) = tokens(first("team", TOKEN, jwt_request("db", spiffe_id=f"{DOMAIN}/zone")))
    check_own_token(given, jwks, "zone", "db")
    expect_refusal(*denied, "team", TOKEN, jwt_request("db", spiffe_id=f"{DOMAIN}/writer"))
    expect_refusal(*denied, "team", TOKEN, jwt_request("db", spiffe_id=f"{DOMAIN}/web"))


def jwt_bundles():
    bundles = pairs(first("web", JWT_BUNDLES), 1)
    expect(list(bundles) == [DOMAIN], f"bundles of {list(bundles)}")
    expect([it["kid"] for it in json.loads(bundles[DOMAIN])["keys"]] == ["sample"], "other keys")


def check():
    expect(field(first("web", CHECK), 1) == SERVING, "not serving")
    service = health_request("SpiffeWorkloadAPI")
    expect(field(first("nobody", CHECK, service), 1) == NOT_SERVING, "serving one who is entitled to nothing")


def watch():
    expect(field(first("web", WATCH), 1) == SERVING, "not serving")


def denied():
    for path, request in (X509, b""), (TOKEN, jwt_request("db")):
        expect_refusal(grpc.StatusCode.PERMISSION_DENIED, "no identity issued", "nobody", path, request)


def no_header():
    for path in X509, X509_BUNDLES, JWT_BUNDLES, TOKEN:
        expect_refusal(grpc.StatusCode.INVALID_ARGUMENT, "security header missing from request", "web", path, metadata=())


def cancelled():
    with channel("web") as opened:
        for _ in range(50):
            got = call(opened, X509)
            next(got)
            got.cancel()
        (svid,) = svids(next(call(opened, X509)))
    check_own(svid, "web")


def cancelled_at_once():
    with channel("web") as opened:
        for _ in range(50):
            call(opened, X509).cancel()
    x509()


def rotation():
    chains = set()
    with channel("rotating") as opened:
        got = call(opened, X509)
        for _ in range(4):
            (svid,) = svids(next(got))
            # at once: it is over in four seconds
            check_own(svid, "rotating")
            chains.add(svid.chain)
    expect(len(chains) == 4, "an SVID twice")


def document():
    with channel("changing") as opened:
        got = call(opened, X509)
        before = [it.spiffe_id for it in svids(next(got))]
        change("more")
        after = [it.spiffe_id for it in svids(next(got))]
        change("less")
        again = [it.spiffe_id for it in svids(next(got))]
    expect(before == again == [f"{DOMAIN}/changing"], f"{before} before, {again} after all")
    expect(after == [*before, f"{DOMAIN}/more"], f"{after} after the change")


def bundles_change():
    """Each stream with a bundle in its messages gets one with both authorities, and then its first once more."""
    reads = {
        X509: lambda it: [len(certificates(svid.bundle)) for svid in svids(it)],
        X509_BUNDLES: lambda it: [len(certificates(bundle)) for bundle in pairs(it, 2).values()],
        JWT_BUNDLES: lambda it: [len(json.loads(jwks)["keys"]) for jwks in pairs(it, 1).values()],
    }
    with channel("web") as opened:
        streams = {path: call(opened, path) for path in reads}
        for what, wanted in (None, [1]), ("two_authorities", [2]), ("less", [1]):
            if what:
                change(what)
            for path, got in streams.items():
                found = reads[path](next(got))
                expect(found == wanted, f"{path} has {found} after {what}")


def watch_change():
    with channel("coming") as opened:
        got = call(opened, WATCH, health_request("SpiffeWorkloadAPI"))
        for what, wanted in (None, NOT_SERVING), ("coming", SERVING), ("less", NOT_SERVING):
            if what:
                change(what)
            found = field(next(got), 1)
            expect(found == wanted, f"state {found} after {what}")


def signer_outage():
    """What is kept is served while the signer is away; tokens are not, and are again once it is back."""
    change("signer_down")
    try:
        own_sockets_but_rotating = [it for it in ENTITLED if it != "rotating"]
        for socket in own_sockets_but_rotating:
            expect(len(svids(first(socket, X509))) == len(ENTITLED[socket]), f"{socket} lost an SVID")
        expect_refusal(grpc.StatusCode.UNAVAILABLE, "jwt-svid cannot be signed", "web", TOKEN, jwt_request("signer outage"))
    finally:
        change("signer_up")
    (given,) = tokens(first("web", TOKEN, jwt_request("signer outage")))
    check_own_token(given, own_jwks("web"), "web", "signer outage")


def authority_outage():
    """The last document stays while the authority is away, and the next one is taken once it is back."""
    change("authority_down")
    try:
        change("more")
        time.sleep(3)
        expect(len(svids(first("changing", X509))) == 1, "another document without an authority")
        x509()
    finally:
        change("authority_up")
    with channel("changing") as opened:
        got = call(opened, X509)
        ids = [it.spiffe_id for it in svids(next(got))]
        ids = ids if len(ids) == 2 else [it.spiffe_id for it in svids(next(got))]
    expect(ids == [f"{DOMAIN}/changing", f"{DOMAIN}/more"], f"{ids} once it is back")
    change("less")


def restart():
    """A stream of the agent that ended ends, and the same channel is served by the next one, with another SVID."""
    with channel("web") as opened:
        got = call(opened, X509)
        (before,) = svids(next(got))
        change("restart")
        try:
            expect(not next(got), "a message of an agent that has ended")
        except grpc.RpcError as error:
            expect(error.code() == grpc.StatusCode.UNAVAILABLE, f"ended by {error.code()}")
    (after,) = svids(first("web", X509))
    check_own(after, "web")
    expect(after.chain != before.chain, "an SVID that outlived its agent")
    own_sockets()


def above_64_kib():
    message = first("middle", X509)
    expect(len(message) > 65_536 and [len(it) for it in pairs(message, 3).values()] >= [100_000], f"{len(message)} bytes")


def above_1_mib():
    message = first("large", X509)
    expect(len(message) > 1_048_576, f"{len(message)} bytes")
    check_own(svids(message)[0], "large")


def hundred():
    opened = [channel("web") for _ in range(100)]

    def fetch(it):
        got = call(it, X509, seconds=60)
        message = next(got)
        it.close()
        return message

    with concurrent.futures.ThreadPoolExecutor(100) as pool:
        expect(len(set(pool.map(fetch, opened))) == 1, "different answers")


def stops_reading():
    stuck = [channel("large") for _ in range(3)]
    calls = [call(it, X509) for it in stuck]
    time.sleep(1)
    above_1_mib()
    for it, opened in zip(calls, stuck):
        it.cancel()
        opened.close()
    above_1_mib()


def killed():
    program = "import sys, time; sys.argv = ['', sys.argv[1]]\nimport client_grpcio as it\n" \
        "opened = it.channel('rotating'); next(it.call(opened, it.X509)); print(1, flush=True); time.sleep(60)"
    for _ in range(8):
        it = subprocess.Popen([sys.executable, "-c", program, FOLDER], cwd=pathlib.Path(__file__).parent, stdout=subprocess.PIPE)
        expect(it.stdout.readline() == b"1\n", "a client was not served")
        it.kill()
        it.wait(SECONDS)
    expect(len(svids(first("rotating", X509))) == 1, "the next one is not served")


CASES = [x509, own_sockets, x509_bundles, jwt, jwt_ids, jwt_bundles, check, watch, denied, no_header, cancelled, cancelled_at_once,
         rotation, document, bundles_change, watch_change, above_64_kib, above_1_mib, hundred, stops_reading, killed, signer_outage,
         authority_outage, restart]


def main():
    for case in CASES:
        if sys.argv[2:] and case.__name__ not in sys.argv[2:]:
            continue
        try:
            case()
            said = "ok"
        except Exception as error:
            said = f"FAILED {type(error).__name__} {str(error)[:300]!r}"
        print(f"{case.__name__} {said}", flush=True)


if __name__ == "__main__":
    main()
