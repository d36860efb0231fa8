"""Whether what an agent gives out is what it should be, by openssl: leaf and key of an X.509-SVID, signature and claims of a
JWT-SVID. Each call returns where all holds, and raises Wrong with what does not."""
import base64
import json
import pathlib
import re
import subprocess
import tempfile
import time

SECONDS = 20
# a DER public key on P-256 (RFC 5480) up to the two coordinates
P256_PREFIX = bytes.fromhex("3059301306072a8648ce3d020106082a8648ce3d03010703420004")
# the longest time that a token of the sample signer lives, and how far two looks at the clock may lie apart
TOKEN_SECONDS, CLOCK_SECONDS = 300, 60


class Wrong(Exception):
    pass


def expect(holds, what):
    if not holds:
        raise Wrong(what)


def openssl(*words, data=None):
    ran = subprocess.run(["openssl", *map(str, words)], input=data, capture_output=True, timeout=SECONDS)
    expect(ran.returncode == 0, f"openssl {words[0]}: {(ran.stderr or ran.stdout).decode(errors='replace').strip()[:200]}")
    return ran.stdout


def certificates(bundle):
    """The DER certificates that stand one after another."""
    found, at = [], 0
    while at < len(bundle):
        expect(bundle[at:at + 2] == b"\x30\x82", "a bundle is no row of certificates")
        end = at + 4 + int.from_bytes(bundle[at + 2:at + 4], "big")
        found.append(bundle[at:end])
        at = end
    return found


def pem(der):
    return "-----BEGIN CERTIFICATE-----\n" + base64.encodebytes(der).decode() + "-----END CERTIFICATE-----\n"


def check_x509(svid, spiffe_id, dns_names=(), hint=""):
    """The leaf has a path to the bundle that came with it (RFC 5280), names the id and the DNS names and nothing else, is no
    authority, and the key is its key."""
    expect(svid.spiffe_id == spiffe_id, f"the id {svid.spiffe_id}")
    expect(svid.hint == hint, f"the hint {svid.hint!r}")
    with tempfile.TemporaryDirectory() as scratch:
        scratch = pathlib.Path(scratch)
        (scratch / "leaf").write_text(pem(certificates(svid.chain)[0]))
        (scratch / "roots").write_text("".join(map(pem, certificates(svid.bundle))))
        (scratch / "key").write_bytes(svid.key)
        openssl("verify", "-x509_strict", "-CAfile", scratch / "roots", scratch / "leaf")
        leaf = ("x509", "-in", scratch / "leaf", "-noout")
        names = openssl(*leaf, "-ext", "subjectAltName").decode()
        expect(re.findall(r"URI:([^,\s]+)", names) == [spiffe_id], f"the URI names: {names}")
        expect(re.findall(r"DNS:([^,\s]+)", names) == list(dns_names), f"the DNS names: {names}")
        expect("CA:FALSE" in openssl(*leaf, "-ext", "basicConstraints").decode(), "a leaf is no authority")
        own = openssl("pkey", "-inform", "DER", "-in", scratch / "key", "-pubout")
        expect(own == openssl(*leaf, "-pubkey"), "the key is not the certificate's")


def unb64url(text):
    return base64.urlsafe_b64decode(text + "=" * (-len(text) % 4))


def der_number(raw):
    body = raw.lstrip(b"\0") or b"\0"
    body = b"\0" + body if body[0] & 0x80 else body
    return bytes([2, len(body)]) + body


def check_signature(head, claims, signature, key):
    """RFC 7515 with the ES256 of RFC 7518, section 3.4."""
    raw = unb64url(signature)
    expect(len(raw) == 64, "the length of the signature")
    numbers = der_number(raw[:32]) + der_number(raw[32:])
    with tempfile.TemporaryDirectory() as scratch:
        scratch = pathlib.Path(scratch)
        (scratch / "key.der").write_bytes(P256_PREFIX + unb64url(key["x"]) + unb64url(key["y"]))
        (scratch / "signature").write_bytes(bytes([0x30, len(numbers)]) + numbers)
        openssl("pkey", "-pubin", "-inform", "DER", "-in", scratch / "key.der", "-pubout", "-out", scratch / "key.pem")
        openssl("dgst", "-sha256", "-verify", scratch / "key.pem", "-signature", scratch / "signature", data=f"{head}.{claims}".encode())


def check_token(given, jwks, spiffe_id, audience, hint=""):
    """The token is signed by a key of the bundle, and says who (`sub`), for whom (`aud`) and until when (`exp`)."""
    expect(given.spiffe_id == spiffe_id, f"the id {given.spiffe_id}")
    expect(given.hint == hint, f"the hint {given.hint!r}")
    head, claims, signature = given.token.split(".")
    shown, said = json.loads(unb64url(head)), json.loads(unb64url(claims))
    expect(shown["alg"] == "ES256", f"the algorithm {shown['alg']}")
    keys = [it for it in json.loads(jwks)["keys"] if it["kid"] == shown["kid"]]
    expect(len(keys) == 1 and keys[0]["use"] == "jwt-svid", "the bundle has no such key")
    check_signature(head, claims, signature, keys[0])
    expect(said["sub"] == spiffe_id, f"the subject {said['sub']}")
    expect(said["aud"] == list(audience), f"the audience {said['aud']}")
    now = time.time()
    expect(now < said["exp"] <= now + TOKEN_SECONDS + CLOCK_SECONDS, f"the expiry {said['exp']} at {now:.0f}")
