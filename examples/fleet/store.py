"""What publish and follow know of etcd: the key of a node, and calls of etcdctl, which ETCDCTL_ENDPOINTS tells where to go."""
import base64
import json
import os
import re
import subprocess

ENVIRONMENT = {**os.environ, "ETCDCTL_API": "3"}
# seconds that etcd may take for one call
CALL_SECONDS = 10


class StoreFault(Exception):
    """etcd could not be asked, or it refused."""


def key_of(node):
    """The key of a node's document. DOMAIN is the trust domain."""
    domain = os.environ.get("DOMAIN", "example.org")
    for it in (domain, node):
        if not re.fullmatch(r"[a-z0-9._-]+", it):
            raise StoreFault(f"{it!r} is not a name of letters, digits, dots, dashes and underscores")
    return f"/agentd/{domain}/nodes/{node}"


def etcdctl(*words, data=None):
    """What etcdctl answers to these words."""
    try:
        ran = subprocess.run(["etcdctl", *words], input=data, capture_output=True, env=ENVIRONMENT, timeout=CALL_SECONDS, check=False)
    except (OSError, subprocess.TimeoutExpired) as error:
        raise StoreFault(f"etcdctl: {error}") from error
    if ran.returncode:
        raise StoreFault(f"etcdctl: {ran.stderr.decode(errors='replace').strip()}")
    return ran.stdout


def read(key):
    """The value of a key with its revision (none and 0 where it isn't there), and the revision of the whole store."""
    answer = json.loads(etcdctl("get", "--write-out=json", key))
    whole = answer["header"]["revision"]
    for it in answer.get("kvs", []):
        return base64.b64decode(it.get("value", "")), it["mod_revision"], whole
    return None, 0, whole


def quoted(value):
    """A text in the form that etcdctl's transactions read: in double quotes, with escapes of Go."""
    plain = {ord('"'): '\\"', ord("\\"): "\\\\"}
    return '"' + "".join(plain.get(it) or (chr(it) if 32 <= it < 127 else f"\\x{it:02x}") for it in value) + '"'


def write(key, value, revision):
    """Writes a value where the key still has this revision (0: is not there). Whether it was written."""
    lines = [f'mod({quoted(key.encode())}) = "{revision}"', "", f"put {quoted(key.encode())} {quoted(value)}", "", "", ""]
    return etcdctl("txn", data="\n".join(lines).encode()).startswith(b"SUCCESS")
