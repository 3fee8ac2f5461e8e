#!/usr/bin/env python3
"""Makes wrong bodies of a few shapes from the source of a crate, and asks the prover for each. README has the rest.

    edits/plant.py --list NAME ..       writes the bodies of these crates, and proves nothing
    edits/plant.py NAME ..              tries each on a copy of the work tree
      --only WORD,WORD                  those of functions whose file or name has one of these words
      --shape SHAPE                     those of one shape: twice, more, result, argument, loop, early, option, constant
      --most N                          so many of each crate, evenly spread
      --many N                          so many in one check, 40 where none are told
      --seconds N                       a check has so many seconds for each of its bodies, and 120 for the libraries
      --source                          writes which of them compile, and proves nothing
      --jobs N                          the jobs of each check
      --behind FILE                     those that FILE, what an earlier run or --source wrote, does not judge
"""

import argparse
import os
import re
import shutil
import signal
import subprocess
import sys
import tempfile
from collections import Counter, namedtuple
from pathlib import Path

TOP = Path(__file__).resolve().parent.parent
KINDS = ["clause", "open", "elsewhere", "proved", "no source", "not judged"]
# The texts of the files that a body changes, the functions to check (none where that may be all), and what stands where
# instead of what, in code. A body that can stand in a copy of its function, beside it, has this copy; it is checked
# together with others.
Body = namedtuple("Body", "shape texts only note copy edit")
# The file, where the copy stands in it, its text before and behind its name, that of the function as it is behind its
# name, and the folder of its proof files.
Copy = namedtuple("Copy", "file at head name tail same proofs")
Function = namedtuple("Function", "name types returns begin end start named block file", defaults=[None])
# The variants of each enum that hold nothing, and the fields that are truth values. The types of the parameters of all
# functions of a name (none where it may be any type), and whether a receiver stands before them. What only computes.
ENUMS, BOOLS, PARAMETERS, COMPUTES = {}, set(), {}, set()
# Methods and functions of the libraries that only compute.
PLAIN = {*"as_ref as_slice checked_add checked_mul checked_sub copied from get is_empty is_err is_none is_ok".split()}
PLAIN |= {*"is_some iter len max min saturating_add saturating_sub wrapping_add wrapping_mul".split()}
WORDS = {*"as else false for if in let match move mut ref return self true while".split()}
CALL = re.compile(r"\b([a-z_]\w*)\s*(?:::<[^()]*>)?\(")
IMPL = re.compile(r"(?m)^(?:pub )?(?:impl|trait)\b([^{;]*)\{")
# What no borrow lets pass: a check of the source then ends before it comes to proofs.
END = """
struct PlantEnd {
    of: u8,
}

fn plant_end(of: PlantEnd) -> (PlantEnd, PlantEnd) {
    let one = of;
    (one, of)
}
"""
NAMES = re.compile(r"has no field|is not in scope|has no `|was not admitted|not checked|is no name")
GONE = re.compile(r"module `\S+\.(?:Goals|Given)` has no")


def seconds_of(session):
    """Returns the processor seconds that the processes of this session have taken."""
    ticks = 0
    for file in Path("/proc").glob("[0-9]*/stat"):
        try:
            words = file.read_text().rsplit(")", 1)[1].split()
        except OSError:
            continue
        ticks += sum(map(int, words[11:15])) * (int(words[3]) == session)
    return ticks / os.sysconf("SC_CLK_TCK")


def close_of(text, at):
    """Returns the place behind the bracket that closes the one here."""
    depth = 0
    for at in range(at, len(text)):
        depth += (text[at] in "([{") - (text[at] in ")]}")
        if depth == 0:
            return at + 1
    return len(text)


def masked(text):
    """Returns the text with blanks for comments, strings, attributes and what is said in antt."""
    blank = lambda it: re.sub(r"[^\n]", " ", it)
    text = re.sub(r'//[^\n]*|"(?:\\.|[^"\\])*"|#!?\[[^\]\n]*\]', lambda it: blank(it[0]), text)
    at = 0
    while clause := re.compile(r"\b(requires|ensures|ghost)\b[^{};]*\{").search(text, at):
        at = close_of(text, clause.end() - 1)
        text = text[: clause.start()] + blank(text[clause.start() : at]) + text[at:]
    return text


def read_types(files):
    said = "\n".join(masked(it.read_text(encoding="utf-8")) for it in sorted(files))
    for name, body in re.findall(r"(?s)\benum (\w+)[^{]*(\{.*?\n\})", said):
        ENUMS[name] = re.findall(r"(?m)^ +([A-Z]\w*),", body)
    BOOLS.update(re.findall(r"\b(\w+): bool,", said))


def read_functions(folders):
    """Reads what each function's parameters are, and which functions only compute."""
    bodies = {}
    PARAMETERS.clear()
    COMPUTES.clear()
    for file in (it for folder in folders for it in sorted(folder.glob("src/**/*.rt"))):
        mask = masked(file.read_text(encoding="utf-8"))
        blocks = [(it.end(), close_of(mask, it.end() - 1), it[1]) for it in IMPL.finditer(mask)]
        aliases = "|".join(re.findall(r"\btype (\w+)", mask)) or "Self"
        for it in re.finditer(r"\bfn (\w+)(<[^(]*>)?\(", mask):
            generic = (it[2] or "") + "".join(of for start, end, of in blocks if start < it.start() < end)
            generic = "|".join({"Self", "impl", "dyn", aliases, *re.findall(r"\b([A-Z]\w*)\s*[:,>]", generic)})
            end = close_of(mask, it.end() - 1)
            types = parts_of(mask, mask, it.end(), end - 1)
            takes = bool(types) and re.fullmatch(r"(&\s*('\w+ )?)?(mut )?self", types[0]) is not None
            types = [part.split(":", 1)[-1] for part in types[takes:]]
            types = [None if re.search(rf"\b({generic})\b", said) else plain_type(said) for said in types]
            PARAMETERS.setdefault(it[1], []).append((takes, types))
            opens = re.compile(r"[{;]").search(mask, end)
            body = mask[opens.start() : close_of(mask, opens.start())] if opens and opens[0] == "{" else None
            said = body and (mask[it.start() : opens.start()] + body).split("(", 1)[1]
            calls = None if not said or has_effect(said) else {*CALL.findall(said)}
            bodies.setdefault(it[1], []).append(calls)
    # What a function that only computes calls only computes, too.
    COMPUTES.update(name for name, of in bodies.items() if None not in of)
    while wrong := {it for it in COMPUTES if not set().union(*bodies[it]) <= COMPUTES | PLAIN | WORDS}:
        COMPUTES.difference_update(wrong)
    COMPUTES.update(PLAIN - {*bodies})


def plain_type(said):
    return re.sub(r"&\s*(mut )?|\s+", "", re.sub(r"'\w+ ?", "", said))


def computes(said):
    """Returns whether this code changes nothing that others see, and asks nobody."""
    return not has_effect(said) and {*CALL.findall(said)} <= COMPUTES | PLAIN | WORDS


def has_effect(said):
    """Returns whether this code itself changes what others may see, or may call what does, as a closure."""
    if re.search(r"&\s*(?:'\w+ )?mut\b|\bunsafe\b|\balloc\b|\b[a-z]\w*!|\|", said):
        return True
    # (what is put into a field, or behind a reference)
    return re.search(r"(?:[*.]\s*\w+|\])\s*[-+*/|&^%]?=(?!=)", said) is not None


def functions_of(mask, text):
    """Returns the functions that have a body and are no tests, with the places between its braces."""
    found = []
    for it in re.finditer(r"\bfn (\w+)", mask):
        given = mask.index("(", it.end())
        opens = re.compile(r"[{;]").search(mask, close_of(mask, given))
        if opens and opens[0] == "{" and "#[test]" not in text[: it.start()].rsplit("}", 1)[-1]:
            returns = re.search(r"->\s*([^{]*?)\s*(?:where\b|\{|$)", mask[it.end() : opens.end()])
            types = [part.split(":", 1) for part in parts_of(mask, mask, given + 1, close_of(mask, given) - 1)]
            types = {part[0].removeprefix("mut "): part[1].strip() for part in types if len(part) == 2}
            end = close_of(mask, opens.start()) - 1
            start = 1 + max(mask.rfind(mark, 0, it.start()) for mark in "{};")
            blocks = re.finditer(r"(?m)^(?:pub )?(?:impl|trait)\b[^{;]*\{", mask[: it.start()])
            block = [on[0] for on in blocks if close_of(mask, on.end() - 1) > it.start()]
            returns = returns[1].strip() if returns else ""
            found.append(Function(it[1], types, returns, opens.end(), end, start, it.start(1), "".join(block)))
    return found


def copy_of(crate, file, f, text, turned):
    """Returns the copy of a function in which the body is the one of this text, or nothing for a method of a trait."""
    if re.search(r"\bfor\b|\btrait\b", f.block) or "#[cycle" in text[f.start : f.named]:
        return None
    module = file.relative_to(crate / "src").with_suffix("").as_posix()
    module = crate / "proofs" / re.sub(r"^(lib|main)$|/?\bmod$", "", module)
    # (the folder of a function that calls itself has a mark before its name; a type may stand in another module)
    names = (f.name, f"+{f.name}")
    proofs = [it for top in (module, crate / "proofs") for name in names for it in top.glob(f"**/{name}") if f.block]
    proofs = [it for it in proofs if re.search(rf"\b{it.parent.name}\b", f.block)]
    proofs += [it for it in (module / name for name in names) if it.is_dir()]
    end = f.end + len(turned) - len(text)
    behind, folder = f.named + len(f.name), proofs[0] if proofs else None
    head, same = text[f.start : f.named], text[behind : f.end + 1]
    return Copy(file, f.end + 1, head, f.name, turned[behind : end + 1], same, folder)


def without_tactics(body):
    """Returns the body with a copy in which only what stands in proof files is tried."""
    head = re.sub(r"#\[tactic\(.*\)\]", "", body.copy.head)
    head = re.sub(r"((?:pub(?:\([^()]*\))? )?(?:const )?(?:unsafe )?fn )$", r"#[tactic(none)] \1", head)
    return body._replace(copy=body.copy._replace(head=head))


def statements_of(mask, begin, end):
    """Returns where the simple statements, and the last expressions of blocks, begin and end."""
    found = []
    for it in re.finditer(r"[{};]\s*(?=[^\s{};),.?=])", "{" + mask[begin:end]):
        start = at = begin - 1 + it.end()
        if re.match(r"(for|while|loop|if|match|else|return|break|continue)\b", mask[start:end]):
            continue
        while at < end and mask[at] not in ";}":
            at = close_of(mask, at) if mask[at] in "([{" else at + 1
        said = mask[start:at].rstrip()
        before = mask[begin:start].rsplit("\n", 1)[-1]
        is_block = re.match(r" *(\} else )?(if|while|for|match)\b", before)
        if re.search(r"\b[A-Z]\w*[a-z]\w* \{ $", before) and not is_block:
            continue
        flat = re.sub(r"\([^()]*\)|\{[^{}]*\}", "", said)
        # What stands between the braces of a `match` or of a struct is none.
        is_part = said.count("[") != said.count("]") or re.match(r"\w+\s*[:,](?!:)", said) or said.endswith(",")
        if "=>" not in flat and not is_part:
            found.append((start, start + len(said) + (mask[at : at + 1] == ";")))
    return found


def call_of(said):
    """Returns the call that a statement makes, or nothing."""
    call = re.sub(r"^let [^=]*= ", "", said).rstrip(";").strip()
    return call if re.match(r"[a-zA-Z][\w.:]*(::<[^()]*>)?\(", call) and not re.match(r"(Ok|Err|Some)\(", call) else ""


def again(call):
    """Returns a statement that makes a call once more, under a name of its own, so that the other keeps its name."""
    return f"let again = {call[:-1]}; let _again = again?; " if call.endswith("?") else f"let _again = {call}; "


def parts_of(text, mask, begin, end):
    """Returns the arguments between these places."""
    commas, at = [begin - 1], begin
    while at < end:
        commas += [at] * (mask[at] == ",")
        at = close_of(mask, at) if mask[at] in "([{" else at + 1
    return [it for it in (text[a + 1 : b].strip() for a, b in zip(commas, [*commas[1:], end])) if it]


# The shapes: each gives what is replaced, by where it begins and ends, and what stands there then

def acts(said):
    """Returns the call that a statement makes, or nothing. One that only computes means the same when made again."""
    return "" if computes(masked(said)) else call_of(said)


def is_known(f, mask, call, at):
    """Returns whether each name that a call says may be known at this place of its function."""
    names = {*re.findall(r"(?<![\w.:'])([a-z_]\w*)\b(?!\s*(?:\(|!|::|:(?!:)))", masked(call))}
    names -= {*WORDS, *f.types, *PARAMETERS}
    return all(re.search(rf"\b{it}\b", mask[f.begin : at]) for it in names)


def is_row(mask, found):
    """Returns whether these statements stand one right behind the other."""
    return all(not mask[end:start].strip() for (_, end), (start, _) in zip(found, found[1:]))


def twice(f, text, mask):
    for start, end in statements_of(mask, f.begin, f.end):
        if call := acts(text[start:end]):
            yield start, start, again(call)


def more(f, text, mask):
    found = statements_of(mask, f.begin, f.end)
    for n, (start, end) in enumerate(found):
        call, places = acts(text[start:end]), {found[0][0], found[-1][0]} - {start}
        # (what only computes may stand between: then this is the shape before)
        if is_row(mask, found[: n + 1]) and all(computes(mask[a:b]) for a, b in found[:n]):
            places -= {found[0][0]}
        if is_row(mask, found[n:]) and all(computes(mask[a:b]) for a, b in found[n + 1 : -1]):
            places -= {found[-1][0]}
        for at in sorted(places) if call else []:
            if is_known(f, mask, call, at):
                yield at, at, again(call)


def result(f, text, mask):
    for it in re.finditer(r"\b(?:(true|false)\b|(\w+)::([A-Z]\w*)(?![\w(:{])|Some\()", mask[f.begin : f.end]):
        at, rest = f.begin + it.start(), mask[f.begin + it.end() :].split("\n", 1)[0]
        line = mask[: f.begin + it.end()].rsplit("\n", 1)[-1]
        if "=>" in rest or re.search(r"\blet Some|matches!", line) or re.match(r" *\|", rest):
            continue
        unlike = [f"{it[2]}::{variant}" for variant in ENUMS.get(it[2], []) if variant != it[3]][:1]
        unlike = {"true": ["false"], "false": ["true"], "Some(": ["None"]}.get(it[0], unlike)
        for new in unlike:
            yield at, close_of(mask, at + 4) if new == "None" else at + len(it[0]), new
    for it in re.finditer(r"\bOk\(([a-z]\w*)\)(?! *=>)", mask[f.begin : f.end]):
        bound = re.findall(r"\blet (?:mut )?(\w+)", mask[f.begin : f.begin + it.start()])
        for new in [name for name in dict.fromkeys(bound) if name != it[1]][:2]:
            yield f.begin + it.start(1), f.begin + it.end(1), new


def argument(f, text, mask):
    for it in re.finditer(r"(?<![!\w])[a-z_]\w*\(", mask[f.begin : f.end]):
        opens = f.begin + it.end()
        end = close_of(mask, opens - 1) - 1
        parts = parts_of(text, mask, opens, end)
        callee = re.search(r"\w+$", mask[: opens - 1])[0]
        known = [[None] * (len(parts) - len(types)) + types for takes, types in PARAMETERS.get(callee, [])
                 if len(types) <= len(parts) <= len(types) + takes]
        for n, (one, two) in enumerate(zip(parts, parts[1:])):
            # What is lent, and what is an allocator, seldom has the type of what stands beside it.
            kinds = {re.match(r"&mut|&|(self\.)?alloc$|rt$|", part)[0] for part in (one, two)}
            types = {f.types[part] for part in (one, two) if part in f.types}
            may_fit = one != two and len(kinds) == 1 and len(types) < 2
            # Nor does it compile where what is called takes two types there.
            may_fit &= not known or any(None in of[n : n + 2] or of[n] == of[n + 1] for of in known)
            # What is lent to be changed cannot be lent twice.
            is_lent = any(it.startswith("&mut") for it in (*kinds, *types))
            for new in [(two, one)] + [(one, one), (two, two)] * (not is_lent) if may_fit else []:
                yield opens, end, ", ".join([*parts[:n], *new, *parts[n + 2 :]])


def loop(f, text, mask):
    for it in re.finditer(r"\bfor .* in (.*?)(\.\.=?)(.*?) \{", mask[f.begin : f.end]):
        low, dots, high = it.groups()
        ends = {"..=": [f"{low}..{high}"], "..": [f"{low}..=({high})", f"{low}..({high}).saturating_sub(1)"]}[dots]
        for new in [f"{low} + 1{dots}{high}", *ends]:
            yield f.begin + it.start(1), f.begin + it.end(3), new
    for it in re.finditer(r"\bin &?([a-z_]\w*(?:\.[a-z]\w*)*?)(\.iter\(\))? \{", mask[f.begin : f.end]):
        yield f.begin + it.start(1), f.begin + it.end() - 2, f"{it[1]}.iter().skip(1)"


def early(f, text, mask):
    held = re.sub(r"^(?:Result|Option)<(.*?)(?:, [^<>]*)?>$", r"\1", f.returns)
    plain = {"()": ["()"], "": [""], "bool": ["true", "false"]}.get(held, ["0"] if re.match(r"u\w+$", held) else [])
    plain += [f"{held}::{variant}" for variant in ENUMS.get(held, [])[:2]]
    answers = {"Result": [f"Ok({it})" for it in plain], "Option": ["None"]}
    found = statements_of(mask, f.begin, f.end)
    for n, (start, end) in enumerate(found):
        # (behind what only computes this is the body before)
        is_same = n and is_row(mask, found[n - 1 : n + 1]) and computes(mask[slice(*found[n - 1])])
        for new in [] if is_same else answers.get(f.returns[:6], plain):
            # (before what answers this anyway it means the same)
            if text[start:end].strip() not in (new, f"return {new};"):
                yield start, start, f"return {new}; ".replace("return ;", "return;")


def option(f, text, mask):
    for it in re.finditer(r"\bif (?!let\b)(.*?) \{", mask[f.begin : f.end]):
        for new in ("true", "false"):
            yield f.begin + it.start(1), f.begin + it.end(1), new
    for it in re.finditer(r"(?<![\w.])[a-z_][\w.]*\.(\w+)\b(?! ?[(=.])", mask[f.begin : f.end]):
        if it[1] in BOOLS:
            yield f.begin + it.start(), f.begin + it.end(), "false"


def constants(crate, file, text, mask, place):
    """Returns bodies in which a number is turned: in the code alone, and in the definitions too where they say it."""
    specs = {it: it.read_text(encoding="utf-8") for it in sorted((crate / "specs").rglob("*.antt"))}
    functions, users = functions_of(mask, text), {}
    for other in sorted(it for it in (crate / "src").rglob("*.rt") if it.name != "tests.rt"):
        other_text = other.read_text(encoding="utf-8")
        for f in functions_of(masked(other_text), other_text):
            for name in {*re.findall(r"\b[A-Z][A-Z_]+\b", other_text[f.start : f.end])}:
                users.setdefault(name, []).append(f._replace(file=other))
    for it in re.finditer(r"(?<![\w.])(\d[\d_]*)(?![\w.]*\w)", mask):
        value, line = int(it[1].replace("_", "")), mask[: it.start()].rsplit("\n", 1)[-1]
        inside = [f for f in functions if f.begin <= it.start() < f.end]
        if value < 2 or not (inside or re.search(r"\bconst \w+:", line)):
            continue
        said = re.compile(rf"(?<![\w.]){value}(?![\w.])")
        for new in dict.fromkeys([value + 1, 1]):
            turned = text[: it.start(1)] + str(new) + text[it.end(1) :]
            note = f"{place(it.start())} {line.strip()} {it[1]}: {new}"
            copy = copy_of(crate, file, inside[0], text, turned) if inside else None
            edit = (file, it.start(1), it.end(1), str(new), inside[0] if inside else None)
            # (where no function names it, that may be said anywhere)
            named = re.search(r"\bconst (\w+):", line)
            only = [inside[0]._replace(file=file)] if inside else users.get(named[1])
            yield Body("constant", {file: turned}, only, note, copy, edit)
            both = {path: said.sub(str(new), was) for path, was in specs.items() if said.search(was)}
            if both and not inside:
                yield Body("constant", {file: turned, **both}, None, f"{note}, and in specs/", None, edit)


def bodies_of(crate):
    """Returns the wrong bodies of a crate, each once."""
    # (where two crates have a type of one name, this crate's own is meant; what was built has sources, too)
    for files in (TOP.glob("crates/*/src/**/*.rt"), crate.glob("src/**/*.rt")):
        read_types(files)
    read_functions([TOP / "crates" / it for it in below(crate.name)])
    found, seen = [], set()
    for file in sorted(it for it in (crate / "src").rglob("*.rt") if it.name != "tests.rt"):
        text = file.read_text(encoding="utf-8")
        mask = masked(text)
        place = lambda at: f"{file.relative_to(crate)}:{text.count(chr(10), 0, at) + 1}"
        for f in (it._replace(file=file) for it in functions_of(mask, text)):
            for shape in (twice, more, result, argument, loop, early, option):
                for start, end, new in shape(f, text, mask):
                    turned = text[:start] + new + text[end:]
                    was = " ".join((text[start:end] or text[start:].split("\n", 1)[0]).split())[:60]
                    note = f"{place(start)} {f.name}: {'before ' * (start == end)}{was}: {' '.join(new.split())}"
                    if turned != text and turned not in seen:
                        seen.add(turned)
                        copy = copy_of(crate, file, f, text, turned)
                        edit = (file, start, end, new, f)
                        found.append(Body(shape.__name__, {file: turned}, [f], note, copy, edit))
        found += constants(crate, file, text, mask, place)
    return found


def below(name):
    """Returns the crate and all of the work tree that it stands on."""
    lines = re.findall(r"(?m)^(\w+)[^:#\n]*:([^#\n]*)", (TOP / "crates.txt").read_text(encoding="utf-8"))
    on, found = {it: rest.split() for it, rest in lines}, [name]
    for it in found:
        found += [that for that in on.get(it, []) if that in on and that not in found]
    return found


def owner_of(block):
    """Returns what a check calls an `impl` by: its type and its trait, without what stands for any type."""
    said = re.sub(r"'\w+|\b\w+::", "", block.strip().rstrip("{"))
    said, generic = re.sub(r"^(pub )?(impl|trait)\b", "", said).split(" where ")[0], []
    if said.startswith("<"):
        ends = close_of(said.replace("<", "(").replace(">", ")"), 0)
        said, generic = said[ends:], re.findall(r"\b([A-Z]\w*)\b", re.sub(r":[^,]*", "", said[:ends]))
    tuple_of = lambda it: f"Tuple{it[1].count(',') + 1} {it[1]}"
    parts = [re.sub(r"\(([^()]*)\)", tuple_of, it) for it in said.split(" for ")]
    words = [it for part in parts[::-1] for it in re.findall(r"\w+", part) if it not in (*generic, "mut", "dyn")]
    return "".join(it[0].upper() + it[1:] for it in words)


def parts_of_check(said, names, lines):
    """Returns what a check says of each of these functions: of what lies in its lines, and in its own proof files."""
    parts = {name: [] for name in names}
    for line in said.split("\n"):
        note = re.match(r"note: (?:\./)?(src/\S+?):(\d+):", line)
        about = re.match(r"(?:\./)?proofs/\S*/\+?(\w+_plant\d+)/|fn \S+?::\+?(\w+_plant\d+)\b", line)
        name = lines.get((note[1], int(note[2]))) if note else about and (about[1] or about[2])
        if not note and not about and (about := re.match(r"(?:\./)?proofs/(\S+)/\w+\.antt:|fn \w+?::(\S+?):", line)):
            name = (about[1] or about[2].replace("::", "/")).replace("+", "")
        if name in parts:
            parts[name].append(line)
    return {name: "\n".join(part) for name, part in parts.items()}


class Room:
    """A copy of the work tree, in which bodies are tried, with the libraries that were built in the work tree."""

    def __init__(self, folder, name, jobs, seconds, proves=True):
        self.here, self.crate = TOP / "crates" / name, Path(folder) / "tried" / "crates" / name
        # Where no library is built, a check tells what does not compile in some seconds, and ends.
        self.source = Path(folder) / "source" / "crates" / name
        for top in (self.crate.parents[1], self.source.parents[1]):
            shutil.copytree(TOP / "crates", top / "crates", ignore=shutil.ignore_patterns("out", "must-fail"))
            subprocess.run(["cp", TOP / "crates.txt", TOP / "HANDLES", top], check=True)
            subprocess.run(["git", "init", "-q", top], check=True)
        for built in [*(f"crates/{it}/out/rlib" for it in below(name)), f"crates/{name}/out/incremental"]:
            if proves and (TOP / built).is_dir():
                (there := self.crate.parents[1] / built).parent.mkdir(exist_ok=True)
                # (rt tells by the times of files what it has to do again)
                subprocess.run(["cp", "-a", "--reflink=auto", TOP / built, there], check=True)
        self.jobs, self.seconds, self.most = ["--jobs", str(jobs)] if jobs else [], seconds, 0
        # What a check calls functions by, the number of each copy, which it keeps, so that what was checked of it stays
        # so, and the proof files from which answers were taken away.
        self.names, self.numbers, self.cut, self.homes, functions = [], {}, {}, {}, []
        # Methods of traits, and what may call itself, have proofs of another form.
        own = lambda it: re.compile(rf"(?<![\w.:])(?:self\.|Self::)?{it.name}(?:::<[^()]*>)?\(")
        is_plain = lambda it: not re.search(r"\bfor\b|\btrait\b", it.block) and it.name != "main"
        for file in sorted(it for it in (self.here / "src").rglob("*.rt") if it.name != "tests.rt"):
            text = file.read_text(encoding="utf-8")
            mask = masked(text)
            self.homes.update((it, self.module_of(file)) for it in re.findall(r"\b(?:struct|enum) (\w+)", mask))
            plain = (it for it in functions_of(mask, text) if is_plain(it) and not own(it).search(text, it.begin, it.end))
            functions += [it._replace(file=file) for it in plain]
        self.proved = [self.called(it) for it in functions]

    def check(self, *words, folder=None):
        how = {"cwd": folder or self.crate, "stdout": subprocess.PIPE, "stderr": subprocess.STDOUT, "encoding": "utf-8"}
        ran = subprocess.Popen(["rt", "check", *words, *self.jobs], **how, errors="replace", start_new_session=True)
        try:
            said = None
            while said is None:
                try:
                    said = ran.communicate(timeout=5)[0]
                except subprocess.TimeoutExpired:
                    if self.most and seconds_of(ran.pid) > self.most:
                        raise
        except BaseException:
            os.killpg(ran.pid, signal.SIGKILL)
            ran.communicate()
            raise
        return ran.returncode, "\n".join(dict.fromkeys(it.removeprefix("so far: ") for it in said.split("\n")))

    def drop(self, errors):
        """Takes the declarations of proof files away in which these errors lie. Returns whether there was any."""
        dropped = 0
        for file in {file for file, _ in errors}:
            kept, line = [], 1
            for block in (self.crate / file).read_text(encoding="utf-8").split("\n\n"):
                behind = line + block.count("\n") + 2
                lies = any(where == file and line <= at < behind for where, at in errors) and block[:4] != "use "
                kept += [] if lies else [block]
                line, dropped = behind, dropped + lies
            self.cut[file] = "\n\n".join(kept)
            (self.crate / file).write_text(self.cut[file], encoding="utf-8")
        return dropped

    def there(self, path):
        return self.crate / path.relative_to(self.here)

    def module_of(self, file):
        return re.sub(r"^(lib|main)$|/?\bmod$", "", file.relative_to(self.here / "src").with_suffix("").as_posix())

    def called(self, f):
        """Returns what a check should call this function, from the module on, where a method's type stands."""
        owner = owner_of(f.block) if f.block else ""
        return "/".join(it for it in (self.homes.get(owner, self.module_of(f.file)), owner, f.name) if it)

    def name_of(self, f):
        return name if (name := self.called(f)) in self.names else None

    def close(self):
        """Puts a hole in the place of the proof of each function, which is known to be proved."""
        for name in self.proved:
            folder, own = self.crate / "proofs" / name, name.split("/")[-1]
            if not folder.with_name(f"+{own}").exists():
                shutil.rmtree(folder, ignore_errors=True)
                folder.mkdir(parents=True)
                path = f"Rattle.{self.crate.name}.proofs.{name.replace('/', '.')}"
                said = f"use {path}.Statement.{{statement}}\n\npub {own}_spec : {{M : Type 1}} → statement M\n"
                (folder / "Proof.antt").write_text(f"{said}{own}_spec = ?\n", encoding="utf-8")

    def restore(self):
        shutil.rmtree(self.crate / "proofs", ignore_errors=True)
        for part in [part for part in ("src", "specs", "proofs") if (self.here / part).is_dir()]:
            shutil.copytree(self.here / part, self.crate / part, dirs_exist_ok=True)

    def verdicts(self, bodies, many, is_told=False):
        """Gives each body with what became of it, and by which goals."""
        # (a run that has told of one tells of all that do not compile before it tries others)
        compile = bodies if is_told else self.compiled(bodies)
        yield from ((it, "no source", "") for it in bodies if it not in compile)
        place = lambda it: it.copy and (it.copy.file, it.copy.at)
        has_answers = lambda it: it.copy.proofs and (it.copy.proofs / "Answers.antt").exists()
        copies, sound, doubtful = [it for it in compile if it.copy], set(), set()
        # What is answered in proof files is looked at first, without the tactics: these do the same in a copy as in the
        # place, and take long where a goal is false. Each function's right body is asked before its wrong ones.
        for is_quick in (True, False):
            asked, left = {}, []
            for it in copies:
                if has_answers(it) or not is_quick:
                    right = it._replace(copy=it.copy._replace(tail=it.copy.same))
                    asked.setdefault(place(it), [] if place(it) in sound else [right]).append(it)
                else:
                    left.append(it)
            for it, kind, why in self.by_batches(sum(asked.values(), []), many, is_quick):
                if it.copy.tail == it.copy.same:
                    is_sound = kind == "proved" or is_quick and (kind, why) == ("not judged", "")
                    (sound if is_sound else doubtful).add(place(it))
                elif place(it) in sound and not (is_quick and kind == "not judged"):
                    yield it, kind, why
                elif place(it) in sound:
                    left.append(it)
            copies = left
        # (where a copy of the right body is not proved, that of a wrong one shows nothing)
        if rest := [it for it in compile if not it.copy or place(it) in doubtful]:
            self.learn_names({(f.file, f.start): f for it in rest for f in it.only or []}.values())
            yield from self.in_place(rest)

    def learn_names(self, functions):
        """Learns by which names a check knows these functions, which are right."""
        names = [self.called(it) for it in functions]
        said = self.check(*(word for name in names for word in ("--only", name.replace("/", "::"))))[1] if names else ""
        if not (found := re.findall(r"(?m)^fn \w+?::(\S+): proved", said)):
            status, said = self.check()
            if status:
                sys.exit(f"edits/plant.py: {self.crate.name} is not proved as it stands")
            found = re.findall(r"(?m)^fn \w+?::(\S+): proved", said)
        self.names = [it.replace("+", "").replace("::", "/") for it in found]

    def in_place(self, bodies):
        """Gives what became of bodies that stand in the place of the right ones: one a check of each function."""
        rounds = []
        for it in bodies:
            if it.edit[4] and len(it.only) == 1 and (name := self.name_of(it.only[0])):
                at = next((at for at, round in enumerate(rounds) if name not in round), len(rounds))
                rounds += [{}] * (at == len(rounds))
                rounds[at] = rounds[at] | {name: it}
            else:
                yield (it, *self.alone(it))
        for round in rounds:
            found = self.at_once(round) or {name: self.alone(it) for name, it in round.items()}
            yield from ((it, *found[name]) for name, it in round.items())

    def edited(self, bodies, crate):
        """Writes these bodies in the place of the right ones. Gives the lines of each, by the place of its function."""
        lines, edits = {}, [it.edit for it in bodies]
        for file in {edit[0] for edit in edits}:
            text = file.read_text(encoding="utf-8")
            for _, start, end, new, f in sorted((it for it in edits if it[0] == file), key=lambda it: -it[1]):
                text = text[:start] + new + text[end:]
                # (those of functions behind it move by as many lines as it brings)
                more = new.count("\n") - file.read_text(encoding="utf-8").count("\n", start, end)
                lines = {(path, at + more * (path == file)): it for (path, at), it in lines.items()}
                begins, ends = text.count("\n", 0, f.start) + 1, text.count("\n", 0, f.end + len(new) - end + start) + 1
                lines.update(((file, at), (file, f.start)) for at in range(begins, ends + 1))
            (crate / file.relative_to(self.here)).write_text(text, encoding="utf-8")
        return {(file.relative_to(self.here).as_posix(), at): f for (file, at), f in lines.items()}

    def at_once(self, round):
        """Returns what became of these bodies, each of another function, or nothing if the check has no end."""
        self.restore()
        names = {(it.edit[0], it.edit[4].start): name for name, it in round.items()}
        lines = {at: names[f] for at, f in self.edited(round.values(), self.crate).items()}
        left, found = [*round], {}
        self.most = self.seconds and 120 + self.seconds * len(left)
        try:
            for times in range(6):
                said = self.check(*(word for name in left for word in ("--only", name.replace("/", "::"))))[1]
                if not re.search(r"(?m)^(only=|rattle: no verdict)", said):
                    return None
                for name, part in parts_of_check(said, left, lines).items():
                    if verdict := self.verdict(part, times):
                        found[name] = verdict
                        left.remove(name)
                if not left:
                    break
            return {name: found.get(name, ("not judged", "its answers have no end")) for name in round}
        except subprocess.TimeoutExpired:
            return None
        finally:
            self.most = 0
            self.restore()

    def by_batches(self, bodies, many, is_quick=False):
        batches = [bodies[at : at + many] for at in range(0, len(bodies), many)]
        while batches:
            batch = batches.pop(0)
            if (found := self.together(batch, is_quick)) is None and len(batch) > 1:
                batches[:0] = [batch[: len(batch) // 2], batch[len(batch) // 2 :]]
            else:
                found = found or [("not judged", "its check has no end")]
                yield from ((it, *verdict) for it, verdict in zip(batch, found))

    def proofs_of(self, name, copy):
        return self.there(copy.proofs).with_name(copy.proofs.name.replace(copy.name, name))

    def put(self, bodies, crate=None):
        """Puts these bodies beside their functions, as functions of other names. Gives names and the lines of each."""
        if not crate:
            self.restore()
            self.close()
        number = lambda it: self.numbers.setdefault((it.file, it.at, it.tail), len(self.numbers))
        names, lines, texts = [f"{it.copy.name}_plant{number(it.copy)}" for it in bodies], {}, {}
        for name, (_, _, _, _, copy, _) in zip(names, bodies):
            was, added = texts.get(copy.file) or (copy.file.read_text(encoding="utf-8"), [])
            tail = re.sub(rf"(?<![\w.:])((?:self\.|Self::)?){copy.name}\(", rf"\1{name}(", copy.tail)
            texts[copy.file] = was, [*added, (copy.at, name, copy.head + name + tail)]
            if copy.proofs and not crate:
                at = ".".join(copy.proofs.relative_to(self.here).parts)
                # What a function names itself by is in the place of its files, and in its goals where it calls itself.
                own = copy.name if "+" in at else re.escape(at[: -len(copy.name)]) + copy.name + r"(?=\.)"
                shutil.copytree(copy.proofs, to := self.proofs_of(name, copy))
                for file in to.rglob("*.antt"):
                    text = re.sub(rf"(?<!\w){own}(?!\w)", lambda it: it[0][: -len(copy.name)] + name, file.read_text())
                    file.write_text(self.cut.get(str(file.relative_to(self.crate)), text), encoding="utf-8")
        for file, (was, added) in texts.items():
            text, behind = "", 0
            for at, name, said in sorted(added):
                text, behind = text + was[behind:at], at
                first = text.count("\n") + 1
                text += said
                for line in range(first, text.count("\n") + 2):
                    lines[file.relative_to(self.here).as_posix(), line] = name
            ((crate or self.crate) / file.relative_to(self.here)).write_text(text + was[behind:], encoding="utf-8")
        return names, lines

    def compiled(self, bodies):
        """Returns those of these bodies that compile."""
        wrong, copies = set(), [it for it in bodies if it.copy]
        placed = [it for it in bodies if not it.copy and it.edit[4]]
        # (a check tells some twenty errors, and those of borrows where there are no others)
        while found := self.errors([it for it in copies if id(it) not in wrong]):
            wrong |= found
        while placed:
            round = {(it.edit[0], it.edit[4].start): it for it in placed}
            placed = [it for it in placed if it is not round[it.edit[0], it.edit[4].start]]
            round = [*round.values()]
            while found := self.errors([it for it in round if id(it) not in wrong], False):
                wrong |= found
        return [it for it in bodies if id(it) not in wrong]

    def errors(self, bodies, is_beside=True):
        """Returns which of these bodies a check tells an error of, before it comes to what is to be proved."""
        if not bodies:
            return set()
        shutil.copytree(self.here / "src", self.source / "src", dirs_exist_ok=True)
        if is_beside:
            names, lines = self.put(bodies, self.source)
            which = dict(zip(names, map(id, bodies)))
            lines = {at: which[name] for at, name in lines.items()}
        else:
            which = {(it.edit[0], it.edit[4].start): id(it) for it in bodies}
            lines = {at: which[f] for at, f in self.edited(bodies, self.source).items()}
        root = next(it for it in (self.source / "src/lib.rt", self.source / "src/main.rt") if it.exists())
        root.write_text(root.read_text(encoding="utf-8") + END, encoding="utf-8")
        said = self.check("--only", "", folder=self.source)[1]
        places = re.findall(r"(?m)^(?:\./)?(src/\S+):(\d+):\d+: error", said)
        if not places:
            sys.exit(f"edits/plant.py: {self.crate.name}: it is not told what compiles:\n{said[-2000:]}")
        return {lines[file, int(at)] for file, at in places if (file, int(at)) in lines}

    def together(self, bodies, is_quick):
        """Returns what became of each of these bodies, which compile, or nothing if the check has no end."""
        names, lines = self.put([without_tactics(it) for it in bodies] if is_quick else bodies)
        left, found = [*names], {}
        self.most = self.seconds and 120 + self.seconds * len(left)
        try:
            for times in range(6):
                said = self.check("--allow-holes", *(word for name in left for word in ("--only", name)))[1]
                said = re.sub(r"(?m)^(fn .*): (no holes|depends on a hole in .*)$", r"\1: proved", said)
                if not re.search(r"(?m)^(only=|rattle: no verdict)", said):
                    return None
                cut = {word.strip("+") for file in self.cut for word in file.split("/")}
                for name, part in parts_of_check(said, left, {} if is_quick else lines).items():
                    if verdict := self.verdict(part, times or name in cut):
                        found[name] = verdict
                        left.remove(name)
                if not left or is_quick:
                    break
            return [found.get(name, ("not judged", "its answers have no end")) for name in names]
        except subprocess.TimeoutExpired:
            return None
        finally:
            self.most = 0
            self.restore()

    def alone(self, body):
        """Returns what became of a body, which stands in the place of the right one."""
        for file, text in body.texts.items():
            self.there(file).write_text(text, encoding="utf-8")
        self.most = self.seconds and 120 + self.seconds
        names = [self.name_of(it) for it in body.only or []]
        names = [] if None in names else [it.replace("/", "::") for it in names]
        try:
            for times in range(6):
                status, said = self.check(*(word for name in names for word in ("--only", name)))
                if re.search(r"(?m)\berror\[[\w-]+\]|^(\./)?(src|specs)/\S+: error", said):
                    return "no source", ""
                if status == 0 or re.search(r"(?m)^only=(\d+) proved=\1\b", said):
                    said += "\nfn it: proved"
                if verdict := self.verdict(said, times):
                    return verdict
            return "not judged", "its answers have no end"
        except subprocess.TimeoutExpired:
            return "not judged", "its checks take longer than they may"
        finally:
            self.most = 0
            self.restore()

    def verdict(self, said, times):
        """Returns what a check says of a body, or nothing if answers were taken away: then it is to be asked again."""
        if re.search(r"(?m)^fn \S+: proved", said) and not re.search(r"(?m)^fn \S+: (?!proved)", said):
            return "proved", f"{times} times without answers" * bool(times)
        errors = re.findall(r"(?m)^(?:\./)?(proofs/\S+?\.antt):(\d+):\d+: error: (?:`([^`]*)`: )?(.*)", said)
        # (a pick of ghost members at a call that is gone is gone, too)
        false = [name for _, _, name, what in errors if not NAMES.search(what) and not name.startswith("ghosts-")]
        goals = re.findall(r"note: \S+: .*? \(`(\S+)`\)(.*)", said)
        # Without answers that stood in a proof file, or at a limit, a goal that is not proved shows less.
        is_open = not false and (times or all("gave up" in how for _, how in goals))
        false += [name for name, _ in goals]
        own = [name for name in dict.fromkeys(false) if "-requires" not in name]
        if false and (own or not errors):
            return ("open" if is_open and own else "clause" if own else "elsewhere"), ", ".join(own or false)
        # An answer of a goal that is gone is not missed. One that names what is gone leaves its goal without an answer.
        if missed := [name for _, _, name, what in errors if not GONE.search(what)]:
            return "open", "no answer to " + ", ".join(filter(None, dict.fromkeys(missed)))
        if self.drop([(file, int(line)) for file, line, _, _ in errors]):
            return None
        return "not judged", "a proof file names what is gone" * bool(errors)


def main():
    # (so that a check that was begun ends with the tool)
    signal.signal(signal.SIGTERM, lambda *_: sys.exit(1))
    words = argparse.ArgumentParser(description=__doc__, formatter_class=argparse.RawDescriptionHelpFormatter)
    words.add_argument("names", nargs="+", metavar="NAME")
    words.add_argument("--list", action="store_true")
    words.add_argument("--source", action="store_true")
    numbers = {"--most": 1 << 30, "--many": 40, "--seconds": 0, "--jobs": 0}
    for word, default in ({"--only": "", "--shape": "", "--behind": ""} | numbers).items():
        words.add_argument(word, type=type(default), default=default)
    given = words.parse_args()
    # What is said of a body stands before two spaces and the goals.
    told = Path(given.behind).read_text(encoding="utf-8").split("\n") if given.behind else []
    told = dict(line.split("  (")[0].split(": ", 1)[::-1] for line in told if line.split(": ")[0] in KINDS[:5])
    for name, count in [(name, Counter()) for name in given.names]:
        found = [it for it in bodies_of(TOP / "crates" / name) if given.shape in it.shape]
        found = [it for it in found if any(word in it.note for word in given.only.split(","))]
        found = found[:: -(-len(found) // given.most) or 1]
        said = lambda it: f"{name}: {it.shape}: {it.note}"
        if given.list:
            print(*map(said, found), sep="\n")
            print(f"{name}: {len(found)} bodies: {dict(Counter(it.shape for it in found))}")
            continue
        count.update(told[said(it)] for it in found if said(it) in told)
        with tempfile.TemporaryDirectory(prefix="plant-") as folder:
            room = Room(folder, name, given.jobs, given.seconds, not given.source)
            if given.source:
                compile = room.compiled(found)
                print(*(f"no source: {said(it)}" for it in found if it not in compile), sep="\n")
                continue
            is_told = any(told.get(said(it)) == "no source" for it in found)
            left = [it for it in found if said(it) not in told]
            for it, kind, why in room.verdicts(left, given.many, is_told):
                count[kind] += 1
                print(f"{kind}: {said(it)}" + f"  ({why[:160]})" * bool(why), flush=True)
        print(f"| `{name}` | {len(found)} | " + " | ".join(str(count[kind]) for kind in KINDS) + " |", flush=True)


if __name__ == "__main__":
    main()
