#!/bin/sh
# Times `agentd simulate` on worlds of several sizes and prints a table in Markdown: seconds of one run, and the most of
# its memory that was resident.
#
#     bench/simulate/measure.sh AGENTD ["ENTRIES CALLERS STEPS" ..]
#
# AGENTD is the built program. There are about 4.8 publications for each step and 100 entries, so 10,000 entries and
# 100,000 steps make 48 million.
set -e
here=$(cd "$(dirname "$0")" && pwd)
agentd=$1
shift
[ $# -gt 0 ] || set -- "100 32 10000" "100 32 100000" "1000 32 1000" "1000 32 10000" "10000 32 100" "10000 32 1000"
echo "| entries | callers | steps | publications | messages | seconds | memory at most, kB |"
echo "|---|---|---|---|---|---|---|"
for size in "$@"; do
  PYTHONPATH="$here/.." python3 -c '
import re, sys
import peak
written, took, most = peak.measure([sys.argv[1], "simulate", "1", *sys.argv[2:]])
sizes = [int(it) for it in re.findall(r"=(\d+)", written)[:5]]
cells = [f"{it:,}" for it in sizes] + [f"{took:.1f}", f"{most:,}"]
print("| " + " | ".join(cells) + " |")
' "$agentd" $size
done
