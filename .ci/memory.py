#!/usr/bin/env python3
"""Holds each answer "out of memory" to a call that failed: `memory.py [ROOT]`.

No contract of the toolchain says when an allocation succeeds, so a body that says at some size that memory ran out is proved. But the text shows
where it is said. Each value that says it has to stand in the arm of a call that said it, in that of a call which fails of nothing else, or in the
conversion of such an error. Every other place is printed, and the status is 1. What is not read are tests.
"""
import re
import sys
from pathlib import Path

# The errors that say it and nothing else. The last of them hand back what was given.
ALONE = {"NoMemory", "AllocError", "AllocFailed", "NotApplied", "NotAdded", "NotServed", "NotMade", "ClockBook"}

# The values that say it.
SAYS = re.compile(r"\b(?:NoMemory|AllocError|AllocFailed|NO_MEMORY)\b|\b(?:NotApplied|NotAdded|NotServed|NotMade)\b(?=\s*\{)|\bno_memory\b(?=\()")

ERROR = re.compile(r"\bErr\(")

# What a pattern of an error from outside says of memory.
OUTSIDE = re.compile(r"\bOutOfMemory\b|\bis_memory\(\)")

# Calls of std that take memory, and fail of nothing else. A push on one of the others is no call of std.
TAKERS = {
    "with_capacity", "to_vec", "push", "push_str", "reserve", "extend_from_slice", "from_str", "from_slice", "clone", "format", "vec", "map_indices",
}
NO_LISTS = {"out", "sink", "link", "source"}
MAKERS = {("Box", "new"), ("Table", "new")}

# Functions whose error is what was given, without a word: each error that they make says it.
HANDING_BACK = {("clock_family/src/house_books.rt", "new"), ("turn_desk/src/board.rt", "open")}

# Where it is said and no such call failed: under which condition, and why that is right.
ELSEWHERE = {
    ("clock/src/kept_quantities.rt", "make_room"): ("if quantities.len() + more as usize > u32::MAX as usize", "32 bits count no more quantities"),
    ("clock/src/repeating.rt", "repeat_idle"): (
        "let Some(room) = reports.checked_add(most * members as u32) else", "32 bits count no more reports"),
    ("house_io/src/memory/given_back.rt", "reserve"): ("match self.free.checked_add(more): None", "64 bits count no more places"),
    ("clock/src/packing.rt", "report"): (
        "match Demand::read_quantities(alloc, goods, self.goods, kept): Err(_)", "what was kept of a demand is one: no other fault comes"),
    ("valuation/src/surpluses.rt", "demanded"): (
        "match Demand::read_quantities(alloc, goods, goods.count(), &quantities): Err(_)", "the best bundles are a demand: no other fault comes"),
    ("valuation/src/making.rt", "capped"): ("match capped_values(alloc, goods, values, cap): Err(_)", "what was drawn is in range: no other fault comes"),
    ("clock_book/src/starting.rt", "fault_of"): ("match fault: _", "a forming has neither of the other two faults"),
    ("recovery/src/streaming.rt", "scanned"): ("match scan(alloc, disk): Err(_)", "a scan has neither of the other two faults"),
    ("turn_desk/src/desk.rt", "new"): ("match Board::open(alloc, book): Err(book)", "a board is not opened where memory ran out, and hands the book back"),
    ("clock_family/src/opening.rt", "no_memory"): ("", "each call of it is looked at in its place"),
}

# Bodies by which this script is tried at each run: each with the number of places that it has to find.
SAMPLES = [
    ("let Ok(list) = Vec::with_capacity(alloc, 3) else { return Err(NoMemory); }; Ok(list)", 0),
    ("match list.push(1) { Ok(()) => Ok(1), Err(_) => Err(NoMemory), }", 0),
    ("match list.push(1) { Err(_) => { Err(NoMemory) } Ok(()) => { Ok(1) } }", 0),
    ("if list.reserve(9).is_err() { return Err(Fault::NoMemory); } Ok(1)", 0),
    ("match take(alloc) { Err(Fault::NoMemory) => Err(NoMemory), Err(_) => Ok(0), Ok(one) => Ok(one), }", 0),
    ("if size > 1_000 { return Err(NoMemory); } Ok(1)", 1),
    ("match list.push(1) { Ok(()) => Err(NoMemory), Err(_) => Ok(1), }", 1),
    ("match list.push(1) { Err(_) | Ok(()) => Err(NoMemory), }", 1),
    ("match take(alloc) { Err(Fault::NoMemory | Fault::Full) => Err(NoMemory), Err(_) => Ok(0), Ok(one) => Ok(one), }", 1),
    ("match take(alloc) { Ok(one) => Ok(one), Err(_) => Err(NoMemory), }", 1),
    ("match list.push(1) { Ok(()) => { if size > 9 { Err(NoMemory) } else { Ok(1) } } Err(_) => Err(NoMemory), }", 1),
    ("Err(NoMemory)", 1),
]
SAMPLE = "fn take(alloc: Global) -> Result<u8, Fault> {{ done() }} fn body(alloc: Global) -> Result<u8, NoMemory> {{ {} }}"

# What is no code: comments, texts, clauses, and what is ghost.
NO_CODE = re.compile(
    r"""//[^\n]*|/\*.*?\*/|b?r(#*)".*?"\1|b?"(?:[^"\\]|\\.)*"|b?'(?:[^'\\\n]|\\[^\n])'|\b(?:requires|ensures)\b(?:\s*\*)?(?:\s+\w+)*\s*\{|\bghost\b""",
    re.S,
)
IMPL = re.compile(r"\bimpl\b(?:<[^{]*?>)?\s+(?:[^{]*?\bfor\s+)?(\w+)[^{;]*\{")
CALL = re.compile(r"(?:(\w+)\s*(?:::|\.)\s*)?(\w+)(?:::<[^>]*>)?\s*!?\s*(?=[(\[])")
CLOSING = {"(": ")", "[": "]", "{": "}"}


def end_of(text, at):
    """The place after the bracket that closes the one at this place."""
    opening, depth = text[at], 0
    while at < len(text):
        depth += (text[at] == opening) - (text[at] == CLOSING[opening])
        at += 1
        if depth == 0:
            break
    return at


def code_of(text):
    """The code alone, at its places: the rest is blank."""
    out, at = [], 0
    while found := NO_CODE.search(text, at):
        end = found.end()
        if found[0] == "ghost":
            while end < len(text) and text[end] != ";":
                end = end_of(text, end) if text[end] == "{" else end + 1
            end += 1
        elif found[0].endswith("{"):
            end = end_of(text, end - 1)
        out += [text[at : found.start()], re.sub(r"[^\n]", " ", text[found.start() : end])]
        at = end
    return "".join(out) + text[at:]


def functions(code):
    """The name, the head and the body's two ends of each function. Where there is no body, both ends are that of the head."""
    for found in re.finditer(r"\bfn\s+(\w+)", code):
        at = found.end()
        while at < len(code) and code[at] not in "{;":
            at = end_of(code, at) if code[at] in "([" else at + 1
        if at < len(code):
            yield found[1], code[found.start() : at], at, end_of(code, at) if code[at] == "{" else at


def parted(text):
    """The parts of a list between its outermost commas."""
    parts, depth, last = [], 0, 0
    for at, sign in enumerate(text):
        depth += (sign in "<([") - (sign in ">)]")
        if sign == "," and depth == 0:
            parts.append(text[last:at])
            last = at + 1
    return [part.strip() for part in [*parts, text[last:]] if part.strip()]


def errors_of(files):
    """The errors that functions answer: by crate and name, by type and name, and by name."""
    errors = {}
    for path, code in files.items():
        impls = [(found.start(), end_of(code, found.end() - 1), found[1]) for found in IMPL.finditer(code)]
        for name, head, start, _ in functions(code):
            result = re.search(r"->\s*Result<(.*)>\s*(?:\bwhere\b.*)?$", head.strip(), re.S)
            error = parted(result[1])[-1].split("<")[0].split("::")[-1] if result else ""
            types = [of for first, last, of in impls if first < start <= last]
            for key in (name, (path.parts[1], name), *((of, name) for of in types)):
                errors.setdefault(key, set()).add(error)
    return errors


def open_braces(code, start, at):
    """The braces that are open at a place of a body, the innermost first: where each opens, and the text before it."""
    opened = []
    for place in range(start, at):
        if code[place] in CLOSING:
            opened.append(place)
        elif code[place] in ")]}":
            opened.pop()
    for place in reversed(opened):
        if code[place] == "{":
            yield place, head_of(code, place)


def head_of(code, brace):
    """The text before a brace, from the end of the statement, the arrow or the bracket before it."""
    at, depth = brace - 1, 0
    while at >= 0:
        sign = code[at]
        if depth == 0 and (sign in ";,}([{" or code[at : at + 2] == "=>"):
            break
        depth += (sign in ")]}") - (sign in "([{")
        at -= 1
    return " ".join(code[at + 1 : brace].removeprefix(">").split())


def arm_of(code, brace, at):
    """The pattern of the arm in which a place of a match lies, or None where it lies in a pattern."""
    place = start = brace + 1
    depth, pattern = 0, None
    while place < at:
        sign = code[place]
        depth += (sign in CLOSING) - (sign in ")]}")
        ends = sign == "}" and not re.match(r"\s*[,.?)]", code[place + 1 :]) or sign == ","
        if depth == 0 and pattern is not None and ends:
            start, pattern = place + 1, None
        elif depth == 0 and code[place : place + 2] == "=>":
            pattern = " ".join(code[start:place].strip(", \n").split())
            place += 1
        place += 1
    return pattern


def is_pattern(code, start, at):
    """Whether a place of a body lies in a pattern."""
    brace, head = next(open_braces(code, start, at))
    if re.search(r"\bmatch\b", head) and arm_of(code, brace, at) is None:
        return True
    return bool(re.search(r"\blet\b[^=;{}]*$", code[start:at]))


def is_taker(of, name, errors, crate):
    """Whether a call fails of nothing but memory: one of a type or a receiver, in a crate."""
    if (of, name) in MAKERS:
        return True
    of_type = of and (of if of[0].isupper() else of.capitalize())
    if (of_type, name) in errors:
        return errors[of_type, name] <= ALONE
    if name in TAKERS and of not in NO_LISTS:
        return True
    answers = errors.get((crate, name)) or errors.get(name, {""})
    return "" not in answers and answers <= ALONE


def takes_alone(text, errors, crate, body):
    """Whether an expression fails of nothing but memory: a call, or a name for what calls answered."""
    if re.fullmatch(r"\w+", text):
        made = re.search(rf"\blet\s+{text}\s*=(.*?);\n", body, re.S)
        calls = [it.groups() for it in CALL.finditer(made[1]) if it[2] not in ("Ok", "new")] if made else []
        return bool(calls) and all(is_taker(*call, errors, crate) for call in calls)
    depth, last = 0, None
    for found in re.finditer(rf"{CALL.pattern}|[(\[{{]|[)\]}}]", text):
        depth += (found[0] in CLOSING) - (found[0] in ")]}")
        if found[2] and depth == 0:
            last = found.groups()
    return last is not None and is_taker(*last, errors, crate)


def is_held(code, errors, crate, start, at):
    """Whether a place of a body is come to only where a call failed of memory."""
    for brace, head in open_braces(code, start, at):
        if found := re.search(r"\bmatch\b(.*)$", head):
            arms = (arm_of(code, brace, at) or "").split("|")
            if all(SAYS.search(arm) or OUTSIDE.search(arm) for arm in arms):
                return True
            failed = all(arm.strip().startswith("Err(") for arm in arms)
        elif found := re.search(r"\blet (?:Ok|Some)\b[^=]*=(.*)\belse$", head) or re.search(r"\bif (.*)\.is_err\(\)$", head):
            failed = True
        elif found := re.search(r"\bif let Err\([^=]*=(.*)$", head):
            failed = True
        else:
            continue
        if failed and takes_alone(found[1].strip(), errors, crate, code[start:at]):
            return True
    return False


def condition_at(code, start, at):
    """The condition, or the match and its arm, under which a place of a body is come to; nothing where there is none."""
    for brace, head in open_braces(code, start, at):
        if found := re.search(r"\bmatch\b.*$", head):
            return f"{found[0]}: {arm_of(code, brace, at)}"
        if re.match(r"let\b.*\belse$|if\b", head):
            return head
    return ""


def said_in(files):
    """How many places say it, and for those where no call failed the line that tells them."""
    errors, count, elsewhere, faults = errors_of(files), 0, set(), []
    for path, code in files.items():
        for name, head, start, end in functions(code):
            place = "/".join(path.parts[1:]), name
            says = ERROR if place in HANDING_BACK else SAYS
            for at in (found.start() for found in says.finditer(code, start, end)):
                if is_pattern(code, start, at):
                    continue
                count += 1
                if place not in elsewhere and ELSEWHERE.get(place, (None,))[0] == condition_at(code, start, at):
                    elsewhere.add(place)
                elif not (name == "from" and SAYS.search(head) or is_held(code, errors, path.parts[1], start, at)):
                    line = code.count("\n", 0, at) + 1
                    faults.append(f"{path}:{line}: {name} says that memory ran out, and no call failed of it")
    return count, elsewhere, faults


def is_tried():
    """Whether the samples are told as they have to be."""
    for body, wanted in SAMPLES:
        _, _, faults = said_in({Path("crates/sample/src/lib.rt"): SAMPLE.format(body)})
        if len(faults) != wanted:
            print(f"memory.py finds {len(faults)} places in: {body}")
            return False
    return True


def main():
    root = Path(sys.argv[1]) if len(sys.argv) > 1 else Path(__file__).resolve().parent.parent
    files = {
        path.relative_to(root): code_of(path.read_text())
        for path in sorted((root / "crates").glob("*/src/**/*.rt"))
        if not path.relative_to(root).parts[1].endswith("_tests") and path.name != "tests.rt"
    }
    count, elsewhere, faults = said_in(files)
    faults += [f"{path}: {name} no longer says it under the condition of ELSEWHERE" for path, name in sorted(set(ELSEWHERE) - elsewhere)]
    for line in faults:
        print(line)
    print(f"{count} places say that memory ran out, {len(elsewhere)} for a reason of their own: {len(faults)} faults")
    return 1 if faults or not is_tried() else 0


if __name__ == "__main__":
    sys.exit(main())
