"""What crates promise to those above them, and what of it a crate can come to.

A proof sees of the crates below their declarations: types, clauses, definitions and lemmas, and no body of a function.
And it comes only to what is named: by its own crate, or by a declaration that it comes to. So of the crates below a crate
rests on the declarations that are reached by names, from its own files on. A name stands for what its file takes in under
it, or declares: a type of a crate is `crate:Type`, whatever its module, a definition or lemma `crate.specs.Module.name`.
"""
from __future__ import annotations

import functools
import re
from dataclasses import dataclass, field

# A function that has clauses: after `rt fmt` its body stands between two lines of one brace each, as deep as its head.
FUNCTION = re.compile(
    r"^(?P<depth> *)(?P<public>pub )?(?P<inner>pub\([^)]*\) )?(?:const )?fn (?:(?!(?P=depth)\}).*\n)*?"
    r"(?P=depth)\{\n(?P<body>(?:(?!(?P=depth)\}$).*\n)*)(?P=depth)\}\n",
    re.MULTILINE,
)
# Where a function begins, but for one that is computed before the program runs.
BEGINS = re.compile(r"^( *)(?:pub(?:\([^)]*\))? )?(?:unsafe )?fn ")
CLAUSE = re.compile(r"^ *(?:requires|ensures|decreases)\b")
# What no other crate sees of a file: comments, how a body is compiled or proved, and empty lines.
UNSEEN = re.compile(r"^ *//.*\n|^ *#!?\[(?:inline|cold|tactic).*\]\n|^\n", re.MULTILINE)
REMARK = re.compile(r"^ *--.*\n", re.MULTILINE)
# What a type with a Model is inside: others see its value alone.
INSIDE = re.compile(r"^    ghost (?:view|invariant) = \{.*?\};\n", re.MULTILINE | re.DOTALL)
MODEL = re.compile(r"^impl\b.* Model for (\w+)", re.MULTILINE)
DECLARED = re.compile(r"^(?:pub(?:\([^)]*\))? )?(?:unsafe |const )*(?:struct|enum|trait|type|fn|mod|const) (\w+)", re.MULTILINE)
HEAD = re.compile(r"^(?:unsafe )?impl\b")
WORD = re.compile(r"\w+")
# A line by which a source takes in names, and one by which a file of definitions or lemmas does.
USE = re.compile(r"^ *(?:ghost )?(?:pub )?use ([^;]*);\n", re.MULTILINE)
TAKES_IN = re.compile(r"^(?:pub )?(?:unfoldable )?use (.*)\n", re.MULTILINE)
PASSES_ON = re.compile(r"^pub (?:unfoldable )?use (.*)\n", re.MULTILINE)
# What declares a name there, or a part of it has.
DECLARES = re.compile(r"^ {0,4}(?:(?:abbrev|unfoldable|pub|record|data|ruleset|module) )*([^\s:(){}|]+)(?: [({].*)? [:=]", re.MULTILINE)
# What a lemma says, and what can be looked into.
SAYS = re.compile(r"^ ? ?(?:pub )?(?!abbrev|unfoldable|record|data|ruleset|module|mutual)([^\s:(){}|]+)(?: [({].*)? : ")
LOOKED_INTO = re.compile(r"^ *(?:pub )?(?:abbrev|unfoldable|record|data|ruleset|module|mutual)\b")
# Operators are declared with a sign for each place of an operand.
TOKEN = re.compile(r"[\w'-]+|[^\s\w'(){}\[\],.;◌]+")
WORDS = re.compile(r"[^\s:.{}]+")
# A variant of a type, or what else stands in it, and a path that a file writes out where it is used.
OF_TYPE = re.compile(r"\b([A-Z]\w*)::\w+")
INLINE = re.compile(r"\b([a-z]\w*)::(?:\w+::)*(\w+)")
WHOLE = re.compile(r"\bRattle\.([a-z]\w*(?:\.[\w'-]+)+)")
# Modules that are made of a type of a source.
MADE = re.compile(r"The[A-Z]|declared$|contracts$")


@dataclass(frozen=True)
class Declaration:
    names: frozenset
    text: str
    keys: frozenset = field(compare=False)


def key_of(words, crate):
    """What a path stands for: a type or function of a source, or a definition or lemma."""
    crate, *rest = words[1:] if words[0] == "Rattle" else (crate if words[0] == "crate" else words[0], *words[1:])
    if words[0] == "Rattle" and not any(map(MADE.match, rest)):
        return ".".join((crate, *rest))
    types = [it for it in rest if not MADE.match(it)]
    of = [it for it in types if it[:1].isupper()] or types
    return f"{crate}:{of[-1]}" if of else None


def expanded(path, crate, before=()):
    """The names that a path with groups takes in, each with what it stands for, and the words of its path."""
    head, brace, rest = path.partition("{")
    if not brace:
        way, _, alias = path.partition(" as ")
        words = (*before, *WORDS.findall(way))
        if words and (key := key_of(words, crate)):
            yield (alias.strip() or words[-1]), (key, words)
        return
    depth, part = 0, ""
    for sign in rest.rpartition("}")[0] + ",":
        depth += {"{": 1, "}": -1}.get(sign, 0)
        if sign == "," and not depth:
            yield from expanded(part.strip(), crate, (*before, *WORDS.findall(head)))
            part = ""
        else:
            part += sign


def taken_in(paths, crate):
    """What the names stand for that a file takes in by these paths, with the words of these."""
    taken = {}
    for path in paths:
        for name, found in expanded(" ".join(path.split()), crate):
            for word in TOKEN.findall(name):
                taken.setdefault(word, set()).add(found)
    return taken


def stand_for(text, taken):
    """What the names of a text stand for, each with the words of its path."""
    found = {it for name in {*TOKEN.findall(OF_TYPE.sub(r"\1", text))} & taken.keys() for it in taken[name]}
    written = {f"{crate}:{name}" for crate, name in INLINE.findall(text)} | {*WHOLE.findall(text)}
    return found | {(it, ()) for it in written}


def declaration(names, text, taken):
    """A declaration, with what its names stand for."""
    found = sorted(stand_for(text, taken))
    return Declaration(frozenset(names), f"{text}{found}", frozenset(key for key, _ in found))


def promise(found):
    """What is left of a function, a match of FUNCTION, where only its clauses are of interest: nothing if no other crate can call it."""
    if found["inner"] or not (found["public"] or found["depth"]):
        return ""
    return f"{found.string[found.start() : found.start('body')]}{found['depth']}}}\n"


def without_bodies(text):
    """The text without the bodies of functions. Where a function has clauses, its body begins with a line of one brace."""
    left, closing, is_head, has_clauses = [], None, False, False
    for line in text.splitlines(keepends=True):
        if closing and line != closing:
            continue
        left.append(line)
        if began := not closing and BEGINS.match(line):
            depth, is_head, has_clauses = began[1], True, False
        closing, has_clauses = None, has_clauses or bool(CLAUSE.match(line))
        if is_head and (line == f"{depth}{{\n" or (not has_clauses and line.endswith("{\n"))):
            closing, is_head = f"{depth}}}\n", False
        elif is_head and (line.endswith(";\n") or (not has_clauses and line.endswith("}\n"))):
            is_head = False
    return "".join(left)


def blocks(text):
    """What stands at the outermost depth of a source that `rt fmt` has laid out."""
    block = ""
    for line in text.splitlines(keepends=True):
        block += line
        if not line.startswith(" ") and line.rstrip().endswith((";", "}")):
            yield block
            block = ""
    if block:
        yield block


def without_brackets(text):
    """The text without what stands in angle brackets."""
    while (less := re.sub(r"<[^<>]*>", "", text.replace("->", ""))) != text:
        text = less
    return text


def names_of(block, taken):
    """The names by which a block of a source is come to: what it declares; of an `impl` its type, or its trait where that is no
    type of these crates."""
    if not HEAD.match(block):
        return {*DECLARED.findall(block)} - {"_"}
    head = re.split(r" *\{| *\bwhere\b", block, maxsplit=1)[0]
    trait, _, kind = without_brackets(head).rpartition(" for ")
    of = WORD.findall(kind)[-1:]
    return {*of} if {*of} & taken.keys() else {WORD.findall(trait)[-1]}


def of_source(text, crate):
    """The declarations of a source."""
    passed_on = taken_in(re.findall(r"^pub use ([^;]*);\n", text, re.MULTILINE), crate)
    for name, found in passed_on.items():
        yield Declaration(frozenset({f"{crate}:{name}"}), f"use {sorted(found)}", frozenset(key for key, _ in found))
    text = without_bodies(FUNCTION.sub(promise, UNSEEN.sub("", text)))
    modelled, taken = {*MODEL.findall(text)}, taken_in(USE.findall(text), crate)
    parts = [*blocks(INSIDE.sub("", USE.sub("", text)))]
    for name in {name for it in parts if not HEAD.match(it) for name in names_of(it, taken)}:
        taken.setdefault(name, set()).add((f"{crate}:{name}", ()))
    for block in parts:
        names = names_of(block, taken)
        if HEAD.match(block) and " for " not in block.partition("{")[0]:
            block = FUNCTION.sub(lambda found: found[0] if found["public"] else "", block)
        elif names & modelled and not HEAD.match(block):
            block = block.partition("{")[0]
        keys = {key for it in names for key, _ in taken.get(it, {(f"{crate}:{it}", ())})}
        if keys:
            yield declaration(keys, block, taken)


def without_proofs(text):
    """What lemmas say, without their proofs, which nobody can look into: a proof is the lines that begin with the lemma's name."""
    left, name, proves = [], None, False
    for line in text.splitlines(keepends=True):
        if said := SAYS.match(line):
            name, proves = said[1], False
        elif not line.strip() or LOOKED_INTO.match(line):
            name, proves = None, False
        proves = proves or (name is not None and not said and line.split(maxsplit=1)[0] == name)
        left.append("" if proves else line)
    return "".join(left)


def of_definitions(text, crate, module):
    """The declarations of a file of definitions or of lemmas: where it opens a module for many of them, all as one."""
    for name, found in taken_in(PASSES_ON.findall(text), crate).items():
        yield Declaration(frozenset({f"{module}.{name}", module}), f"use {sorted(found)}", frozenset(key for key, _ in found))
    left = re.sub(r"^pub mod .*\n", "", TAKES_IN.sub("", REMARK.sub("", text)), flags=re.MULTILINE)
    left = without_proofs(left) if ".proofs." in module else left
    taken = taken_in(TAKES_IN.findall(text), crate)
    for it in DECLARES.findall(left):
        for word in TOKEN.findall(it):
            taken.setdefault(word, set()).add((f"{module}.{word}", ()))
    for part in [left] if re.search(r"^ *(?:module|mutual)\b", left, re.MULTILINE) else re.split(r"\n\n+", left):
        keys = {f"{module}.{word}" for it in DECLARES.findall(part) for word in TOKEN.findall(it)}
        if keys:
            yield declaration({*keys, module}, part, taken)


def place_of(file):
    """The crate of a file, and the module that it is in it."""
    parts = file.with_suffix("").parts
    at = len(parts) - 1 - parts[::-1].index("crates")
    return parts[at + 1], ".".join(parts[at + 1 :])


@functools.lru_cache(maxsize=None)
def declarations(file):
    """What a file of a crate declares to other crates. Answers to the goals of one function, in folders of `proofs/`, are nothing to them."""
    text = file.read_text(encoding="utf-8")
    crate, module = place_of(file)
    if file.suffix == ".rt":
        return [*of_source(text, crate)]
    return [] if ".proofs." in module and file.parent.name != "proofs" else [*of_definitions(text, crate, module)]


def keys_of(files):
    """What the names of some files stand for."""
    found = set()
    for it in files:
        text = it.read_text(encoding="utf-8")
        crate, _ = place_of(it)
        if it.suffix == ".antt":
            found |= stand_for(TAKES_IN.sub("", REMARK.sub("", text)), taken_in(TAKES_IN.findall(text), crate))
        else:
            text = UNSEEN.sub("", text)
            found |= stand_for(USE.sub("", text), taken_in(USE.findall(text), crate))
    return {key for key, _ in found}


def reached(keys, declared):
    """The texts of the declarations that are come to from some names."""
    by_name = {}
    for it in declared:
        for name in it.names:
            by_name.setdefault(name, []).append(it)
    found, seen, left = set(), set(), list(keys)
    while left:
        key = left.pop()
        if key in seen:
            continue
        seen.add(key)
        for it in by_name.get(key, ()):
            if it not in found:
                found.add(it)
                left.extend(it.keys)
    return sorted(it.text for it in found)
