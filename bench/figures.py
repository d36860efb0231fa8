"""What a built measurement prints, and the peak of its memory."""
import os
import subprocess
import sys


def figures(program, *words):
    """The nanoseconds that the program prints by name, and the peak of its memory in bytes."""
    child = subprocess.Popen([program, *words], stdout=subprocess.PIPE, text=True)
    lines = child.stdout.read().splitlines()
    _, status, usage = os.wait4(child.pid, 0)
    if status != 0:
        sys.exit("\n".join(lines))
    named = dict(line.rsplit(": ", 1) for line in lines)
    return {name: int(nanoseconds) for name, nanoseconds in named.items()}, usage.ru_maxrss * 1024
