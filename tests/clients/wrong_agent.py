"""An agent that does one thing wrong, made of a right one: it changes what the agent asks and is given, or its configuration.

    wrong_agent.py WHAT AGENTD serve CONFIG     WHAT is a key of ASKS, DOCUMENTS or CONFIGS

tests/clients/self_test has the clients call it: they must notice."""
import json
import os
import pathlib
import signal
import socket
import subprocess
import sys
import threading

SECONDS = 30


def jwt_audience(ask):
    return {**ask, "audience": ["other"]} if ask["kind"] == "jwt" else ask


def jwt_subject(ask):
    return {**ask, "spiffe_id": "spiffe://example.org/other"} if ask["kind"] == "jwt" else ask


def x509_subject(ask):
    return {**ask, "spiffe_id": "spiffe://example.org/other"} if ask["kind"] == "x509" else ask


def without_dns_names(ask):
    return {**ask, "dns_names": []} if ask["kind"] == "x509" else ask


def empty_jwt_bundles(document):
    return {**document, "bundles": [{**it, "jwks": '{"keys":[]}'} for it in document["bundles"]]}


def without_hints(document):
    return {**document, "entries": [{**it, "hint": ""} for it in document["entries"]]}


def any_selector(document):
    """A caller with one of an entry's selectors is entitled to it."""
    entries = [{**it, "id": f"{it['id']}.{at}" if at else it["id"], "selectors": [selector]}
               for it in document["entries"] for at, selector in enumerate(it["selectors"])]
    return {**document, "entries": entries}


FIRST = {}


def first_document(document):
    """The agent never takes another document."""
    return FIRST.setdefault("document", document)


def other_order(config):
    """The first path is served as the last socket is, and so on."""
    paths = [it["path"] for it in config["sockets"]]
    return {**config, "sockets": [{**it, "path": path} for it, path in zip(config["sockets"], reversed(paths))]}


ASKS = {"jwt_audience": jwt_audience, "jwt_subject": jwt_subject, "x509_subject": x509_subject, "without_dns_names": without_dns_names}
DOCUMENTS = {"empty_jwt_bundles": empty_jwt_bundles, "without_hints": without_hints, "any_selector": any_selector,
             "first_document": first_document}
CONFIGS = {"other_order": other_order}
# it ends where the signer, or the authority, is away
ENDS = {"ends_with_signer": "signer", "ends_with_authority": "upstream"}


def dial(path):
    opened = socket.socket(socket.AF_UNIX)
    opened.settimeout(SECONDS)
    opened.connect(path)
    return opened


def hand_lines(peer, path, changed):
    """Each line goes on, changed, and its answer comes back as it is."""
    with dial(path) as real, peer.makefile("rb") as asks, real.makefile("rb") as answers:
        for line in asks:
            real.sendall(json.dumps(changed(json.loads(line))).encode() + b"\n")
            peer.sendall(answers.readline())


def hand_document(peer, path, changed):
    with dial(path) as real, real.makefile("rb") as all_:
        peer.sendall(json.dumps(changed(json.loads(all_.read()))).encode())


def serve_one(peer, hand, path, changed, at_fault):
    with peer:
        try:
            hand(peer, path, changed)
        except (OSError, ValueError):
            at_fault()


def serve(server, hand, path, changed, at_fault):
    while True:
        peer, _ = server.accept()
        threading.Thread(target=serve_one, args=(peer, hand, path, changed, at_fault), daemon=True).start()


def put_between(config, member, hand, changed, at_fault):
    """Serves a socket of its own in the place of this member's."""
    path = config[member]
    config[member] = f"{path}.between"
    pathlib.Path(config[member]).unlink(missing_ok=True)
    server = socket.socket(socket.AF_UNIX)
    server.bind(config[member])
    server.listen()
    threading.Thread(target=serve, args=(server, hand, path, changed, at_fault), daemon=True).start()


def main(what, agentd, *words):
    config = json.loads(pathlib.Path(words[-1]).read_text())
    config = CONFIGS.get(what, lambda it: it)(config)
    ended = threading.Event()

    def same(it):
        return it

    for member, hand, table in ("signer", hand_lines, ASKS), ("upstream", hand_document, DOCUMENTS):
        at_fault = ended.set if ENDS.get(what) == member else lambda: None
        put_between(config, member, hand, table.get(what, same), at_fault)
    changed = pathlib.Path(f"{words[-1]}.wrong")
    changed.write_text(json.dumps(config))
    agent = subprocess.Popen([agentd, *words[:-1], changed])
    signal.signal(signal.SIGTERM, lambda *_: ended.set())
    while agent.poll() is None and not ended.wait(0.2):
        pass
    agent.kill()
    os._exit(0)


if __name__ == "__main__":
    if sys.argv[1] not in {*ASKS, *DOCUMENTS, *CONFIGS, *ENDS, "nothing"}:
        sys.exit(__doc__)
    main(*sys.argv[1:])
