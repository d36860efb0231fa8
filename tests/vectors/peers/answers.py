"""The calls that are recorded. Each has a service of its own, so that one server answers all of them: the path of a call
is /CASE.SERVICE/METHOD."""
from dataclasses import dataclass

API, HEALTH = "/SpiffeWorkloadAPI/", "/grpc.health.v1.Health/"
ONE = bytes.fromhex("0a190a0e7370696666653a2f2f612e622f771201011a0102220103")
TWO = bytes.fromhex("0a190a0e7370696666653a2f2f612e622f771201051a0106220107")
TOKEN = bytes.fromhex("0a130a0e7370696666653a2f2f612e622f77120174")
SERVING, NOT_SERVING = b"\x08\x01", b"\x08\x02"


@dataclass
class Case:
    name: str
    path: str
    streams: bool
    messages: list
    status: tuple = None


CASES = [
    Case("two", API + "FetchX509SVID", True, [ONE, TWO]),
    Case("empty", API + "FetchX509SVID", True, [b""]),
    Case("denied", API + "FetchX509SVID", True, [], ("PERMISSION_DENIED", "no identity issued")),
    Case("later", API + "FetchX509SVID", True, [ONE], ("UNAVAILABLE", "caf\u00e9 100% \u2713")),
    Case("token", API + "FetchJWTSVID", False, [TOKEN]),
    Case("untoken", API + "FetchJWTSVID", False, [], ("INVALID_ARGUMENT", "audience must be specified")),
    Case("check", HEALTH + "Check", False, [SERVING]),
    Case("unknown", HEALTH + "Check", False, [], ("NOT_FOUND", "unknown service")),
    Case("watch", HEALTH + "Watch", True, [SERVING, NOT_SERVING]),
    Case("long", API + "FetchX509SVID", True, [bytes([0x22, 0xa0, 0x9c, 0x01]) + bytes(20000)]),
]
