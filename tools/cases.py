"""The cases of a client, and the line that it says of each."""
import sys


def tell(cases):
    """Tries each case, or those that the words after the first name, and prints a line for each."""
    for name, case in cases.items():
        if sys.argv[2:] and name not in sys.argv[2:]:
            continue
        try:
            said = "ok" if case() else "FAILED another answer"
        except Exception as error:
            said = f"FAILED {type(error).__name__} {str(error)[:200]!r}"
        print(f"{name} {said}", flush=True)
