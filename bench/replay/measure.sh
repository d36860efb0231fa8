#!/bin/sh
# Times `agentd replay` on scripts as long as one may be, and prints a table in Markdown: seconds, the least of three runs,
# and the most of its memory that was resident.
#
#     bench/replay/measure.sh AGENTD
#
# AGENTD is the built program.
set -e
here=$(cd "$(dirname "$0")" && pwd)
work=$(mktemp -d)
trap 'rm -rf "$work"' EXIT
echo "| script | bytes | lines | bytes of the transcript | seconds | memory at most, MB |"
echo "|---|---|---|---|---|---|"
for kind in calls pings documents; do
  python3 "$here/script.py" "$kind" > "$work/script"
  PYTHONPATH="$here/.." python3 -c '
import sys
import peak
agentd, kind, place = sys.argv[1:]

def run():
    with open(place) as script, open(place + ".out", "w") as transcript:
        return peak.measure([agentd, "replay"], script, transcript)[1:]

runs = [run() for _ in range(3)]
text = open(place, "rb").read()
written = len(open(place + ".out", "rb").read())
lines = text.count(b"\n")
took, most = min(run[0] for run in runs), max(run[1] for run in runs) / 1024
print(f"| {kind} | {len(text):,} | {lines:,} | {written:,} | {took:.2f} | {most:.0f} |")
' "$1" "$kind" "$work/script"
done
