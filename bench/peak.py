"""What a program's run costs."""
import pathlib
import re
import subprocess
import threading
import time


def most_resident(pid):
    """The most memory that was resident so far, in kB, of a program that runs: 0 where it has ended."""
    try:
        found = re.search(r"VmHWM:\s+(\d+) kB", pathlib.Path(f"/proc/{pid}/status").read_text())
    except OSError:
        return 0
    return int(found[1]) if found else 0


def measure(words, source=subprocess.DEVNULL, sink=subprocess.PIPE):
    """What the program writes, the seconds that it takes, and the most of its memory that was resident, in kB.

    That is asked of the system each hundredth of a second, since the peak that wait4 tells of a program begins with that of
    the process that started it.
    """
    start = time.perf_counter()
    child = subprocess.Popen(words, stdin=source, stdout=sink, text=True)
    written = []
    reader = threading.Thread(target=lambda: written.append(child.communicate()[0]))
    reader.start()
    peak = 0
    while reader.is_alive():
        peak = max(peak, most_resident(child.pid))
        reader.join(0.01)
    took = time.perf_counter() - start
    if child.returncode != 0:
        raise SystemExit(f"{words[0]} ended with {child.returncode}")
    return written[0], took, peak
