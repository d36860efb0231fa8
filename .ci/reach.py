"""Which functions of the crates the programs reach, by the names in their sources.

It begins with each `main`, and takes as called each name that stands as a call or an argument in a function that is reached: a
free function by its name alone, a method where its type is used, too. A type is used where its name stands in a function that is
reached, or in a type that is used. Two functions of one name are not told apart by their crates, so it may take for reached what
is not; it overlooks a call that a macro of the repository makes, and there are no such macros.
"""
import pathlib
import re
import typing

CLAUSES = r"\b(?:requires|ensures|decreases|invariant)\*?(?:\s+[\w']+)?\s*$"
KINDS = r"^[ \t]*(?:pub(?:\([^)]*\))? )?(?:unsafe )?(?P<kind>impl|trait|struct|enum|type)\b(?P<head>[^{;(]*)"
NAME = r"[A-Za-z_]\w*"


class Function(typing.NamedTuple):
    crate: str
    owner: str
    name: str
    # the signature and the body, without comments, texts, clauses and ghost statements
    text: str
    # whether it takes nothing and gives nothing: a law, of which the contract alone says something
    is_law: bool


class Reached(typing.NamedTuple):
    # (crate, type or nothing, name) of each function that is reached
    functions: set
    # the names of the types
    types: set
    # all laws, as functions
    laws: set


def key(function):
    return function.crate, function.owner, function.name


def blanked(text):
    """The source with its comments and texts blanked, so that braces in them count for nothing."""
    pattern = r'//[^\n]*|/\*.*?\*/|b?"(?:\\.|[^"\\])*"|b?\'(?:\\.|[^\'\\])\''
    return re.sub(pattern, lambda it: re.sub(r"[^\n]", " ", it[0]), text, flags=re.S)


def closing(text, at):
    """The place after the brace that closes the one at this place."""
    depth = 0
    for found in re.finditer(r"[{}]", text[at:]):
        depth += 1 if found[0] == "{" else -1
        if depth == 0:
            return at + found.end()
    return len(text)


def without_ghosts(body):
    """The body without statements of proofs alone."""
    body = re.sub(r"\bghost\s+let\b[^;]*;", "", body)
    while found := re.search(r"\bghost\s*\{", body):
        body = body[:found.start()] + body[closing(body, found.end() - 1):]
    return body


def parts(text, at):
    """The signature and the body of the function whose parameters begin at this place; no body where there is none."""
    begin, signature = at, ""
    while found := re.search(r"[{;]", text[at:]):
        place = at + found.start()
        end = closing(text, place)
        if found[0] == ";":
            return signature + text[begin:place], None
        if re.search(CLAUSES, text[begin:place]):
            signature += re.sub(CLAUSES, "", text[begin:place])
            begin = at = end
        else:
            return signature + text[begin:place], text[place:end]
    return signature + text[begin:], None


def owners(text):
    """Where each impl, trait and type stands: its places, and its type's name."""
    for found in re.finditer(KINDS, text, flags=re.M):
        head = re.sub(r"<[^<>]*>", "", re.sub(r"<[^<>]*>", "", re.sub(r"<[^<>]*>", "", found["head"])))
        head = re.split(r"\swhere\s", head.split(" for ")[-1])[0].split(":")[0]
        names = re.findall(NAME, head)
        brace = re.search(r"[{;]", text[found.end("head"):])
        if names and brace:
            place = found.end("head") + brace.start()
            yield found["kind"], found.start(), closing(text, place) if brace[0] == "{" else place, names[-1]


def read_crate(folder):
    """The functions of a crate, and the text of each of its types."""
    functions, types = [], {}
    for path in sorted((folder / "src").rglob("*.rt")):
        if "tests" in path.relative_to(folder).parts or path.stem.endswith("tests"):
            continue
        text = blanked(path.read_text())
        spans = list(owners(text))
        for kind, begin, end, name in spans:
            if kind in ("struct", "enum", "type"):
                types[name] = types.get(name, "") + text[begin:end]
        for found in re.finditer(rf"\bfn ({NAME})", text):
            if re.search(r"\bghost\s+(?:pub\s+)?$", text[:found.start()][-16:]):
                continue
            inside = [it for it in spans if it[0] in ("impl", "trait") and it[1] < found.start() < it[2]]
            signature, body = parts(text, found.end())
            code = without_ghosts(body or "")
            owner = inside[-1][3] if inside else ""
            is_law = re.fullmatch(r"\(\s*\)", signature.strip()) is not None
            functions.append(Function(folder.name, owner, found[1], signature + code, is_law))
    return functions, types


def calls(text):
    """The names by which this text calls methods, and those by which it calls free functions or gives them as arguments."""
    methods = set(re.findall(rf"(?:\.|::)\s*({NAME})", text))
    free = set(re.findall(rf"({NAME})\s*(?:::<[^;()]*>)?\s*\(", text)) | set(re.findall(rf"[(,]\s*(?:{NAME}::)*({NAME})\s*(?=[,)])", text))
    return methods, free | methods


def with_parts(names, types, known):
    """These types, and those that stand in them."""
    found, fresh = set(), set(names)
    while fresh:
        found |= fresh
        fresh = {it for name in fresh for it in re.findall(NAME, types.get(name, "")) if it in known} - found
    return found


def reached(top, used, programs):
    """What these programs reach. `used` gives the crates that each crate uses."""
    crates = [read_crate(top / "crates" / it) for it in used]
    functions = [it for its, _ in crates for it in its]
    types = {}
    for _, its in crates:
        for name, text in its.items():
            types[name] = types.get(name, "") + text
    known = {it.owner for it in functions} | set(types)
    todo = [it for it in functions if it.crate in programs and it.name == "main"]
    found, methods, free, live = set(todo), set(), set(), set()
    while todo:
        text = "\n".join(it.text for it in todo)
        more_methods, more_free = calls(text)
        methods, free = methods | more_methods, free | more_free
        live = with_parts(live | (set(re.findall(NAME, text)) & known), types, known)
        todo = [it for it in functions if it not in found and (it.name in methods and it.owner in live if it.owner else it.name in free)]
        found |= set(todo)
    return Reached({key(it) for it in found}, live, {key(it) for it in functions if it.is_law})
