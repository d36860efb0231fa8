#!/usr/bin/env python3
"""Checks of the repository that fail in seconds: layout, links, edits, and the clauses that docs/PROMISES.md names."""
import pathlib
import re
import subprocess
import sys

import reach

TOP = pathlib.Path(__file__).resolve().parent.parent
HANDLES = "Handles allowed: Threads, Wait, Net."
README_LIMIT = 10000
FILE_LINES = 600
FUNCTION_LINES = 40
# functions that are one table or one match, and one that starts all threads
LONG_FUNCTIONS = {"h2_frame body", "hpack static_name", "wl_core step", "wl_serve serve_all"}
PROGRAMS = ["agentd", "wlctl", "wlexplain"]
# words of pages and comments that an English reader stumbles over; "behind" may be said of sockets alone
STRUCK = r"\b(?:is told|are told|want of memory|lives through|as fit|but for|of which it is known|behind(?! (?:a|the|three) (?:Unix )?sockets?| a signer))\b"
# more of them, of pages alone: "none" in place of "not a valid", "told" in place of "reported"
STRUCK_IN_PAGES = STRUCK + r"|\b(?:that|which) (?:is|are) none\b|(?<!there )\b(?:is|are) none of\b|\b(?:was|were|be|been) told\b(?! (?:apart|to))|\btold of\b|\bfor want of\b|\blived through\b"
PAGES = {".md", ".1", ".5"}
COMMENT = r"^\s*(?://[/!]?|--)(.*)$"
# statements of lemmas, of so many letters at least, that stand in more than one place: no more than so many are left
STATEMENT_LETTERS = 60
REPEATED = 12
faults = []


def fault(text):
    faults.append(text)


def tracked():
    out = subprocess.run(["git", "ls-files"], cwd=TOP, capture_output=True, text=True, check=True).stdout
    return [TOP / name for name in out.splitlines() if (TOP / name).is_file()]


def uses(page="crates.txt"):
    """The names that each crate uses, by crates.txt."""
    lines = [line.split("#")[0].partition(":") for line in (TOP / page).read_text().splitlines()]
    return {head.split()[0]: names.split() for head, _, names in lines if head.strip()}


def check_layout(files):
    if (TOP / "HANDLES").read_text().strip() != HANDLES:
        fault("HANDLES: not the one line that it has to be")
    listed = list(uses())
    design = (TOP / "docs" / "DESIGN.md").read_text()
    for name in listed:
        if f"`{name}`" not in design:
            fault(f"docs/DESIGN.md: it doesn't name {name}")
        if not (TOP / "crates" / name / "src").is_dir():
            fault(f"crates.txt: there is no crates/{name}/src")
        if not (TOP / "crates" / name / "README.md").is_file():
            fault(f"crates/{name}: no README.md")
    for path in files:
        if path.suffix not in (".rt", ".antt"):
            continue
        name = path.relative_to(TOP)
        wanted = r"crates/[^/]+/src/.*\.rt" if path.suffix == ".rt" else r"crates/[^/]+/(specs|proofs)/.*\.antt"
        if not re.fullmatch(wanted, str(name)):
            fault(f"{name}: outside a crate's folders")
        elif name.parts[1] not in listed:
            fault(f"{name}: crates.txt does not list its crate")
        text = path.read_text()
        if text.count("\n") > FILE_LINES:
            fault(f"{name}: more than {FILE_LINES} lines")
        if re.search(r"\bhole\b|\bTODO\b|\bFIXME\b", text):
            fault(f"{name}: something is left open")
        for comment in re.findall(COMMENT, text, flags=re.M):
            for word in re.findall(STRUCK, comment, flags=re.I):
                fault(f"{name}: plain English has no {word!r}")


def below(name, used):
    """The repository's crates below this one, and itself."""
    found = {name}
    for it in used[name]:
        if it in used:
            found |= below(it, used)
    return found


def check_costs():
    """`./run` reckons with costs.txt: each crate below the programs that it builds has a line, and no other name has one."""
    lines = [line.split("#")[0].split() for line in (TOP / "costs.txt").read_text().splitlines()]
    known, used = {line[0]: line[1:] for line in lines if line}, uses()
    for name in sorted(below("agentd", used) | below("wlctl", used)):
        if name not in known:
            fault(f"costs.txt: no line for {name}: seconds of one processor, and MB")
    for name, cost in known.items():
        if name not in used:
            fault(f"costs.txt: crates.txt does not list {name}")
        if len(cost) != 2 or not all(it.isdigit() for it in cost):
            fault(f"costs.txt: {name} has no seconds and MB")


def check_functions(files):
    """Functions of code, outside of tests, have at most so many lines in their body."""
    for path in files:
        parts = path.relative_to(TOP).parts
        if path.suffix != ".rt" or "tests" in parts or path.stem.endswith("tests") or parts[1].endswith("_tests"):
            continue
        text = reach.blanked(path.read_text())
        for found in re.finditer(r"\bfn (\w+)", text):
            _, body = reach.parts(text, found.end())
            lines = (body or "").count("\n") - 1
            if lines > FUNCTION_LINES and f"{parts[1]} {found[1]}" not in LONG_FUNCTIONS:
                fault(f"{path.relative_to(TOP)}: {found[1]} has {lines} lines, above {FUNCTION_LINES}")


def check_edit(path, lines):
    """Each old text of an edit stands once in its file."""
    target = None
    for line in lines:
        if line.startswith("file: "):
            target = path.parent.parent / line[len("file: "):]
            if not target.is_file():
                fault(f"{path.relative_to(TOP)}: there is no {line[6:]}")
                break
        elif line.startswith("old: ") and target.read_text().count(line[len("old: "):]) != 1:
            fault(f"{path.relative_to(TOP)}: an old text does not stand there once: {line[5:]}")
            break


def check_edits(files):
    for path in files:
        if path.suffix == ".edit":
            check_edit(path, path.read_text().splitlines())
        elif path.parts[-2:] == ("must-fail", "more.md"):
            for body in re.split(r"^## .*$", path.read_text(), flags=re.M)[1:]:
                check_edit(path, [line[4:] for line in body.splitlines() if line.startswith("    ")])


def check_pages(files):
    size = (TOP / "README.md").stat().st_size
    if size > README_LIMIT:
        fault(f"README.md: {size} bytes, above {README_LIMIT}")
    for path in files:
        if path.suffix not in PAGES:
            continue
        text = re.sub(r"```.*?```", "", path.read_text(), flags=re.S)
        for link in re.findall(r"\]\(([^)#\s]+)[^)]*\)", text):
            if "://" not in link and not (path.parent / link).exists():
                fault(f"{path.relative_to(TOP)}: its link {link} leads nowhere")
        for word in re.findall(STRUCK_IN_PAGES, text, flags=re.I):
            fault(f"{path.relative_to(TOP)}: plain English has no {word!r}")


def check_proof_names(files):
    """The section on proofs of a crate's README names files of that crate."""
    for path in files:
        if path.name != "README.md" or path.parent.parent != TOP / "crates":
            continue
        modules = {it.stem for it in path.parent.glob("*/**/*.antt")}
        for section in re.findall(r"^## Proofs$(.*?)(?=^## |\Z)", path.read_text(), flags=re.M | re.S):
            for name in sorted(set(re.findall(r"`([A-Z]\w+)`", section)) - modules):
                fault(f"{path.relative_to(TOP)}: there is no file {name} in its proofs")


def statements(text):
    """Each name with its statement, whole: what stands between the name's colon and its first clause."""
    lines = text.split("\n")
    for at, line in enumerate(lines):
        head = re.match(r"( *)(?:pub )?([^\s:(){}]+) : (.*)$", line)
        if not head:
            continue
        indent, name, said = head.groups()
        end = next((it for it in range(at + 1, len(lines)) if not lines[it].startswith(indent + " ")), len(lines))
        clause = next((it for it in lines[end:end + 3] if not it.startswith(indent + "unfolding")), "")
        if clause.startswith(indent + name):
            yield name, " ".join([said, *map(str.strip, lines[at + 1:end])])


def shape(said):
    """A statement with its variables numbered, so that two of the same meaning are the same text."""
    bound = re.findall(r"[({]((?:[^\s:(){}]+ )+): |λ ((?:[^\s.(){}λ]+ ?)+)\. ", said)
    places = {name: f"#{at}" for at, name in enumerate(dict.fromkeys(" ".join(map("".join, bound)).split()))}
    return re.sub(r"[^\s(){}.,;]+", lambda word: places.get(word[0], word[0]), said)


def check_repeated(files):
    """A lemma stands once, in the lowest crate that needs it."""
    places = {}
    for path in files:
        if path.suffix != ".antt" or "proofs" not in path.parts:
            continue
        for name, said in statements(path.read_text()):
            # a goal of the code's own names no lemma
            if len(said) >= STATEMENT_LETTERS and "goal." not in said:
                places.setdefault(shape(said), []).append(f"{path.relative_to(TOP)}: {name}")
    repeated = [where for where in places.values() if len(where) > 1]
    if len(repeated) > REPEATED:
        fault(f"{len(repeated)} statements stand in more than one place, above {REPEATED}; state a lemma once:")
        for where in repeated:
            fault("    " + ", ".join(where))


def contract(text, name):
    """What stands between a function's name and its body, for each function of this name."""
    for found in re.finditer(rf"\bfn {re.escape(name)}\b", text):
        end = re.search(r"^\s*\{|[})]\s*;\s*$|\{\}\s*$", text[found.end():], flags=re.M)
        yield text[found.end():found.end() + end.start()] if end else text[found.end():]


def rows(page):
    """Each row: promise | `crate::Type::call` | `clause`, .. | [file](link), as its calls, its clauses and its file."""
    for line in page.read_text().splitlines():
        cells = [cell.strip() for cell in line.strip().strip("|").split("|")]
        if len(cells) == 4 and cells[1].startswith("`"):
            path = (page.parent / re.search(r"\(([^)]+)\)", cells[3]).group(1)).resolve()
            yield re.findall(r"`([^`]+)`", cells[1]), re.findall(r"`([^`]+)`", cells[2]), path


def check_clauses(call, clauses, path, text):
    """Each clause stands in the contract of the call; a type's own facts are its `invariant`."""
    if clauses == ["invariant"]:
        if "ghost invariant" not in text:
            fault(f"docs/PROMISES.md: {call} has no invariant in {path.relative_to(TOP)}")
        return
    found = list(contract(text, call.split("::")[-1]))
    if not found:
        fault(f"docs/PROMISES.md: no {call} in {path.relative_to(TOP)}")
    for clause in clauses:
        wanted = r"ensures\*?\s*\{" if clause == "ensures" else rf"ensures\*? {re.escape(clause)}\b"
        if found and not any(re.search(wanted, one) for one in found):
            fault(f"docs/PROMISES.md: {call} has no clause {clause}")


def is_reached(call, is_type, found):
    """Whether a program reaches this call, or it is a law."""
    crate, *owner, name = call.split("::")
    if is_type:
        return name in found.types
    place = crate, owner[0] if owner else "", name
    return place in found.functions or place in found.laws


def check_promises():
    page = TOP / "docs" / "PROMISES.md"
    all_rows = list(rows(page))
    found = reach.reached(TOP, uses(), PROGRAMS)
    for calls, clauses, path in all_rows:
        if not path.is_file():
            fault(f"docs/PROMISES.md: there is no {path}")
            continue
        text = path.read_text()
        for call in calls:
            check_clauses(call, clauses, path, text)
            if not is_reached(call, clauses == ["invariant"], found):
                fault(f"docs/PROMISES.md: no program reaches {call}")
    if not all_rows:
        fault("docs/PROMISES.md: no rows")


def check_trust():
    """README.md lists, in its section on what is trusted, exactly the kit's crates that crates.txt names; the standard library's
    own, core and std, it names as that."""
    section = re.search(r"^## What is trusted$(.*?)^## ", (TOP / "README.md").read_text(), flags=re.M | re.S)
    listed = set(re.findall(r"`([a-z0-9_]+)`", section[1].split("\n\n")[1])) if section else set()
    used = uses()
    named = {it for names in used.values() for it in names if it not in used} - {"core", "std"}
    for it in sorted(named - listed):
        fault(f"README.md: {it} is trusted, and is not in the list")
    for it in sorted(listed - named):
        fault(f"README.md: {it} is in the list of what is trusted, and no crate uses it")


def check_version():
    """Both programs tell the version that CHANGELOG.md begins with."""
    version = re.search(r"^## (\S+)$", (TOP / "CHANGELOG.md").read_text(), flags=re.M)[1]
    for crate in ("agent_words", "control_words"):
        told = re.findall(r'\.version\("([^"]+)"\)', (TOP / "crates" / crate / "src/lib.rt").read_text())
        if told != [version]:
            fault(f"crates/{crate}: its version is {told}, and CHANGELOG.md begins with {version}")


def check_states():
    """The table of the tests of h2_conn is the one that its maker writes."""
    made = subprocess.run([sys.executable, "tests/vectors/h2_states.py"], cwd=TOP, capture_output=True, text=True)
    kept = (TOP / "crates/h2_conn_tests/src/state_rows.rt").read_text()
    if made.returncode != 0 or made.stdout != kept:
        fault(f"crates/h2_conn_tests/src/state_rows.rt: not what tests/vectors/h2_states.py writes {made.stderr.strip()}")


def check_measurements():
    """bench/uses.txt has a line for each measurement in Rattle, and the crates there are those that its sources name. Whether they
    still compile, `bench/with_crates --compile NAME` tries: that is too dear for these checks."""
    used, kit = uses("bench/uses.txt"), {it for names in uses().values() for it in names}
    sources = {}
    for path in sorted((TOP / "bench").glob("*/*.rt.txt")):
        sources.setdefault(path.parent.name, []).append(path)
    for name in sorted(sources.keys() | used.keys()):
        own = {path.name.removesuffix(".rt.txt") for path in sources.get(name, [])} | {"std", "crate", "self", "super"}
        texts = "\n".join(path.read_text() for path in sources.get(name, []))
        named = set(re.findall(r"^\s*(?:pub )?use ([a-z]\w*)", texts, flags=re.M)) - own
        for it in sorted(named - set(used.get(name, []))):
            fault(f"bench/{name}: it names {it}, and bench/uses.txt does not")
        for it in sorted(set(used.get(name, [])) - uses().keys() - kit):
            fault(f"bench/uses.txt: {name}: there is no crate {it}")


def check_plots():
    """docs/plots has what bench/plots.py draws from the tables of docs/PERFORMANCE.md."""
    drawn = subprocess.run([sys.executable, TOP / "bench" / "plots.py", "--check"], capture_output=True, text=True)
    for line in drawn.stdout.splitlines() + drawn.stderr.splitlines()[-1:]:
        fault(line)


def check_format(files):
    """Each source has the form that `rt fmt` gives it: rt ci refuses a crate with another, and says so late."""
    sources = [str(it) for it in files if it.parent != TOP and it.is_relative_to(TOP / "crates") and it.suffix in (".rt", ".antt")]
    looked = subprocess.run(["rattle", "fmt", "--check", *sources], cwd=TOP, capture_output=True, text=True)
    if looked.returncode:
        said = looked.stdout + looked.stderr
        named = [it for it in sources if it in said]
        fault(f"run rt fmt: {' '.join(named) or said[:300]}")


def main():
    files = tracked()
    check_layout(files)
    check_costs()
    check_functions(files)
    check_format(files)
    check_edits(files)
    check_pages(files)
    check_proof_names(files)
    check_repeated(files)
    check_promises()
    check_trust()
    check_version()
    check_states()
    check_measurements()
    check_plots()
    for text in faults:
        print(text)
    return 1 if faults else 0


if __name__ == "__main__":
    sys.exit(main())
