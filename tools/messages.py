"""The messages of the Workload API and of gRPC health as far as tests read them, by the Protocol Buffers wire format."""
import typing

API, HEALTH = "/SpiffeWorkloadAPI/", "/grpc.health.v1.Health/"
SECURITY = ("workload.spiffe.io", "true")
STREAMS = {API + "FetchX509SVID", API + "FetchX509Bundles", API + "FetchJWTBundles", HEALTH + "Watch"}
SERVING, NOT_SERVING = 1, 2


class Svid(typing.NamedTuple):
    spiffe_id: str
    chain: bytes
    key: bytes
    bundle: bytes
    hint: str


class Token(typing.NamedTuple):
    spiffe_id: str
    token: str
    hint: str


def varint(data, at):
    value, shift = 0, 0
    while True:
        value |= (data[at] & 127) << shift
        shift += 7
        at += 1
        if data[at - 1] < 128:
            return value, at


def fields(data):
    """Each field of a message: its number, and its bytes or its number."""
    at = 0
    while at < len(data):
        key, at = varint(data, at)
        value, at = varint(data, at)
        if key & 7 == 2:
            value, at = data[at:at + value], at + value
        yield key >> 3, value


def field(data, number, default=b""):
    return dict(fields(data)).get(number, default)


def svids(message):
    """The SVIDs of an X509SVIDResponse."""
    return [Svid(field(it, 1).decode(), field(it, 2), field(it, 3), field(it, 4), field(it, 5).decode())
            for n, it in fields(message) if n == 1]


def pairs(message, number):
    """The map of this field, as a dict of bytes."""
    return {field(it, 1).decode(): field(it, 2) for n, it in fields(message) if n == number}


def tokens(message):
    """The tokens of a JWTSVIDResponse."""
    return [Token(field(it, 1).decode(), field(it, 2).decode(), field(it, 3).decode()) for n, it in fields(message) if n == 1]


def varint_bytes(value):
    return bytes([value]) if value < 128 else bytes([value & 127 | 128]) + varint_bytes(value >> 7)


def text(number, value):
    data = value.encode()
    return bytes([number << 3 | 2]) + varint_bytes(len(data)) + data


def jwt_request(*audience, spiffe_id=None):
    return b"".join(text(1, it) for it in audience) + (text(2, spiffe_id) if spiffe_id else b"")


def health_request(service):
    return text(1, service)
