#!/usr/bin/env python3
"""Times `agentd check` and `agentd preview` on generated documents of 1,000, 3,000 and 10,000 entries.

    bench/program/measure.py AGENTD

AGENTD is the built program. Each document has as many signed identities as entries and up to 1,024 bundles; the largest
is near the limit of 16 MiB. The figure is the least of five runs, in milliseconds, with the peak of the memory.
"""
import base64
import json
import resource
import subprocess
import sys
import time


def document(entries, bundles, chain_bytes):
    chain = base64.b64encode(bytes(chain_bytes)).decode()
    order = [(7919 * i) % entries for i in range(entries)]
    return json.dumps({
        "version": 2,
        "trust_domain": "a.b",
        "bundles": [{"trust_domain": "a.b", "x509": "Aw=="}]
        + [{"trust_domain": f"d{i}.org", "x509": "BA=="} for i in range(bundles - 1)],
        "entries": [
            {
                "id": f"e{i:05}",
                "spiffe_id": f"spiffe://a.b/w/{i}",
                "selectors": [f"unix:uid:{i % 100}", f"unix:gid:{i % 7}"],
                "federates_with": [f"d{i % (bundles - 1)}.org"],
                "dns_names": [f"w{i}"],
            }
            for i in order
        ],
        "svids": [
            {"entry": f"e{i:05}", "chain": chain, "key": "Ag==", "not_before": 100, "not_after": 200}
            for i in order
        ],
    }).encode()


def least(agentd, words, text):
    best, status, size = None, None, 0
    for _ in range(5):
        start = time.perf_counter()
        ran = subprocess.run([agentd, *words], input=text, stdout=subprocess.PIPE)
        took = 1000 * (time.perf_counter() - start)
        best = took if best is None else min(best, took)
        status, size = ran.returncode, len(ran.stdout)
    return best, status, size


def main():
    agentd = sys.argv[1]
    words = ["preview"] + [f"unix:uid:{i}" for i in range(5)] + [f"unix:gid:{i}" for i in range(7)]
    for entries, bundles in ((1000, 103), (3000, 308), (10000, 1024)):
        text = document(entries, bundles, 960)
        for name, command in (("check", ["check"]), ("preview", words)):
            took, status, size = least(agentd, command, text)
            print(f"{name} entries={entries} bundles={bundles} bytes={len(text)} status={status} written={size} ms={took:.1f}")
        start = time.perf_counter()
        json.loads(text)
        print(f"python json.loads ms={1000 * (time.perf_counter() - start):.1f}")
    print("peak KiB", resource.getrusage(resource.RUSAGE_CHILDREN).ru_maxrss)


main()
