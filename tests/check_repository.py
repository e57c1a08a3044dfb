#!/usr/bin/env python3
"""Checks the repository itself: its layout, its links and its words. The last line is 'N passed, M failed'."""
import os
import re
import shutil
import subprocess
import sys
import textwrap
from pathlib import Path

TOP = Path(__file__).resolve().parent.parent
LONGEST = 500
# Folders that hold no text of ours.
SKIPPED = {".git", ".build", "out", "tmp", "__pycache__"}
# A paper cited by a number of its own; the repository states each rule in its own words.
CITED = re.compile(
    r"\b(D([1-9]|1[0-9]|2[0-2])|T[1-5]\.[0-9]+|W([1-9]|1[0-9]|2[0-7])|R([1-9]|1[0-5]))\b"
    r"|\b(row|rows|demand|request|document) [0-9]+\b"
)
# The version and the kit's line in the one constant that has them.
VERSION = re.compile(r'VERSION: &str = "(\d+\.\d+\.\d+) \((.*)\)";')
# A row of the protocol's tables of causes and of faults; and a block of commands of a page.
NAMED = re.compile(r"\| (?:\d+ \| )?`([A-Z]\w+)` \|")
COMMANDS = re.compile(r"^```(?:sh|console)$", re.MULTILINE)
EXAMPLE = re.compile(r"```rust\n(.*?)```", re.DOTALL)
# The same on a crate's page, and the source that it is from, which stands under it.
SHOWN = re.compile(EXAMPLE.pattern + r"(?:\n+From `(crates/[^`]*\.rt)`)?", re.DOTALL)
# How long a crate's page is at most: a screen.
MOST_WORDS, MOST_LINES = 480, 70
# An option in the help.
OPTION = re.compile(r"^ {2,6}(?:-\w, )?(--[a-z-]+)", re.MULTILINE)
LINK = re.compile(r"\]\(([^)\s]+)\)")
ELSEWHERE = ("http://", "https://", "mailto:", "#")
# Words of our own dialect, and what plain English has for them.
DIALECT = {
    r"tells?|told|telling": "reports, prints, returns",
    r"want of memory": "out of memory",
    r"growths? (of memory|is|are|was|were|refused)|(a|each|every|no|refused?|refuses|refusing) growths?": "an allocation, a failed allocation",
    r"(a|the) front (of|that)|(a|the) front and (a|the) back": "a prefix, the rest",
    r"stands? to": "relates to, compares with",
    r"wrong bod(y|ies)": "a must-fail edit, a planted bug",
    r"(reader|writer|tap)s? (is|are) on|taps? on": "wraps",
    r"place (counted|of (a|the) byte)|first wrong place": "position",
}
SAID_OTHERWISE = [(re.compile(rf"\b({words})\b", re.IGNORECASE), plain) for words, plain in DIALECT.items()]
# Where the words are looked for: texts whole, and of sources the comments.
WORDED = ("*.md", "docs/**/*", "test", "panad", "package", ".ci/*", "tools/*", "tests/**/*.py", "tests/**/*.c")
WORDED += ("tests/scenarios/*/*/about", "tests/scenarios/*/help*/output", "tests/scenarios/*/no_command/error")
WORDED_SOURCES = ("crates/*/README.md", "crates/**/*.rt", "crates/**/*.antt", "crates/*/must-fail/*.edit")
# How many must-fail edits a crate has at most.
MOST_EDITS = 20
COMMENT = re.compile(r"(?://|--)(.*)")
CODE = re.compile(r"`[^`]*`")
# A name in a source; the beginning of a block whose items stand two blanks further right; and that of an item.
CITES = re.compile(r"[^\s(){}\[\],;.`\"⟦⟧«»:]+")
INNER = re.compile(r"(module _|mutual)\b")
ITEM = re.compile(r"((?:(?:pub|abbrev|unfoldable|opaque|data|record|ruleset)\s+)*)([^\s:(){}\[\],=]+)")
# Files of lemmas that stand for themselves: what definitions say of worked rows, and where a statement is false.
FOR_THEMSELVES = {"Worked.antt", "WorkedContents.antt", "WorkedFinding.antt", "WorkedNotices.antt", "WorkedStatus.antt", "Pictured.antt", "Bounds.antt", "Lib.antt"}
QUOTED = re.compile(r"`([^`]+)`")
NAME = re.compile(r"\w+(::\w+)*")
WORD = re.compile(r"\w+")
# The pages whose names are all names of the sources, and the folders that a path of ours begins with.
NAMING = ("MAP.md", "PROMISES.md")
PARTS = ("tests", "docs", "tools", "crates", "src", "specs", "proofs", "must-fail", ".ci")


def files():
    """Each file of the repository, by path."""
    for at, inner, names in os.walk(TOP):
        inner[:] = sorted(set(inner) - SKIPPED)
        yield from (Path(at) / name for name in sorted(names))


def lines_of(file):
    return file.read_text(encoding="utf-8", errors="replace").splitlines()


def named(file):
    return file.relative_to(TOP)


def listed_crates():
    """The names that crates.txt lists, with no comment and none of the words after a name."""
    lines = (it.split("#")[0] for it in lines_of(TOP / "crates.txt"))
    return [it.split(":")[0].split()[0] for it in lines if it.strip()]


def crate_folders():
    """Each crate has a README.md and at most 20 must-fail edits."""
    for name in listed_crates():
        folder = TOP / "crates" / name
        if not (folder / "README.md").is_file():
            yield f"crates/{name} has no README.md"
        if len([*folder.glob("must-fail/*.edit")]) > MOST_EDITS:
            yield f"crates/{name} has {len([*folder.glob('must-fail/*.edit')])} must-fail edits, over {MOST_EDITS}"


def long_sources():
    """No source file is over 500 lines."""
    for file in sorted(TOP.glob("crates/*/src/**/*")):
        if file.is_file() and len(lines_of(file)) > LONGEST:
            yield f"{named(file)} has {len(lines_of(file))} lines, over {LONGEST}"


def crates_and_folders():
    """Each crate of crates.txt has its folder, and each folder under crates/ is listed."""
    listed = listed_crates()
    if not listed:
        yield "crates.txt lists no crate"
    for name in listed:
        if not (TOP / "crates" / name / "src").is_dir():
            yield f"crates.txt lists {name}, and there is no folder crates/{name}/src"
    for folder in sorted(TOP.glob("crates/*/")):
        if folder.name not in listed:
            yield f"crates/{folder.name} is not in crates.txt, so nothing proves it"


def dead_links():
    """README.md is there, and each link to a file from a page at the top, under docs/ or of a crate leads to one."""
    if not (TOP / "README.md").is_file():
        yield "there is no README.md"
    for page in sorted([*TOP.glob("*.md"), *TOP.glob("docs/**/*.md"), *TOP.glob("crates/*/README.md")]):
        for target in LINK.findall("\n".join(lines_of(page))):
            if not target.startswith(ELSEWHERE) and not (page.parent / target.split("#")[0]).exists():
                yield f"{named(page)} links to {target}, which is not there"


def citations():
    """No text cites a paper by a number of its own."""
    for file in files():
        for number, line in enumerate(lines_of(file), 1):
            found = CITED.search(line)
            if found:
                yield f"{named(file)}:{number} cites a paper by number: {found[0]}"


def words_of(file, line):
    """What of a line is prose: of a source its comment, of any other text all but names in backquotes."""
    if file.suffix in (".rt", ".antt"):
        found = COMMENT.search(line)
        line = found[1] if found else ""
    return CODE.sub("", line)


def dialect():
    """Pages, help, scripts, comments and the names of files use the field's words."""
    found = {it for pattern in (*WORDED, *WORDED_SOURCES) for it in TOP.glob(pattern) if it.is_file()}
    for file in sorted(it for it in found if not SKIPPED & {*named(it).parts} and it != Path(__file__).resolve()):
        name = re.sub(r"[_/.-]", " ", str(named(file)))
        for number, prose in enumerate([name, *(words_of(file, it) for it in lines_of(file))]):
            for words, plain in SAID_OTHERWISE:
                other = words.search(prose)
                if other:
                    yield f"{named(file)}:{number} says {other[0]!r}, and not: {plain}"


def fault_of_edit(edit):
    """Why a must-fail edit cannot be applied, or None. Its later pairs apply to what the earlier ones made."""
    texts, file, old = {}, None, None
    for line in lines_of(edit):
        word, _, rest = line.partition(":")
        rest = rest[1:] if rest.startswith(" ") else rest
        if word == "file":
            file = edit.parents[1] / rest.strip()
            if not file.is_file():
                return f"there is no {rest}"
            texts.setdefault(file, file.read_text(encoding="utf-8"))
        elif word == "old":
            old = rest
            if not file or texts[file].count(old) != 1:
                return f"this is in its file {texts[file].count(old) if file else 0} times: {old}"
        elif word == "new" and old:
            texts[file] = texts[file].replace(old, rest)
    return None if old else "it replaces nothing"


def edits():
    """Each must-fail edit replaces texts that stand once in their files."""
    for edit in sorted(TOP.glob("crates/*/must-fail/*.edit")):
        fault = fault_of_edit(edit)
        if fault:
            yield f"{named(edit)}: {fault}"


def kit_line():
    """The version names the line of the kit that is here, and so does README, where it says what is proved."""
    rt = shutil.which("rt") or "/opt/rattle/bin/rt"
    printed = subprocess.run([rt, "version"], stdin=subprocess.DEVNULL, capture_output=True, text=True, check=True).stdout.strip()
    # a letter behind the number tells kits of one line apart, which have one logic
    kit = re.sub(r"^(rattle-kit-\d+)[a-z]\b", r"\1", printed)
    source, page = TOP / "crates/pana_arguments/src/version.rt", TOP / "README.md"
    version = VERSION.search("\n".join(lines_of(source)))
    if not version:
        yield f"{named(source)} has no version with the kit's line"
    elif version[2] != kit:
        yield f"{named(source)} names {version[2]}, and the kit here is {kit}"
    if f"Proved with `{kit}`" not in "\n".join(lines_of(page)):
        yield f"{named(page)} doesn't say that it is proved with {kit}"
    if version and not any(it.startswith("## ") and version[1] in it for it in lines_of(TOP / "CHANGELOG.md")):
        yield f"CHANGELOG.md has no heading for {version[1]}"


def passes(check):
    """Whether the check finds nothing; prints its line, and what it finds."""
    try:
        found = [*check()]
    except Exception as error:
        found = [f"the check could not run: {error!r}"]
    about = check.__doc__.strip().split("\n")[0]
    print(f"{'FAILED' if found else 'ok'} {about}", *found, sep="\n    ")
    return not found


def untried_names():
    """Each cause and each fault in the protocol's tables is in what a scenario, the sweep or the checks of journals and disks want."""
    wanted = [it for it in TOP.glob("tests/scenarios/*/*/*") if it.name.startswith(("output", "runs"))]
    wanted = "".join("\n".join(lines_of(it)) for it in [*wanted, *(TOP / "tests" / it for it in ("failed_allocations/sweep.py", "check_journal.py", "check_disks.py"))])
    names = [it[1] for it in map(NAMED.match, lines_of(TOP / "docs/PROTOCOL.md")) if it]
    if not names:
        yield "docs/PROTOCOL.md names no cause and no fault"
    yield from (f"nothing looks at {it}" for it in names if f'"{it}"' not in wanted)


def items_of(lines):
    """The items of a file of lemmas by name, each with the numbers of its lines."""
    found, current, is_inner = {}, None, False
    for number, line in enumerate(lines):
        indent = len(line) - len(line.lstrip())
        if not line.strip() or line[indent] in "})]":
            continue
        is_inner = is_inner and indent > 0
        if INNER.match(line):
            is_inner, current = True, None
        elif indent == 2 * is_inner and not line.lstrip().startswith("unfolding "):
            is_item = not re.match(r"\s*(pub )?(mod|use|open)\b", line)
            current = ITEM.match(line.lstrip())[2] if is_item else None
        if current:
            found.setdefault(current, set()).add(number)
    return found


def uncited_lemmas():
    """Each lemma of a crate is cited, by a proof or by what a function's attribute names."""
    sources = [it for kind in ("rt", "antt") for it in TOP.glob(f"crates/*/*/**/*.{kind}") if "out" not in it.parts]
    lines = {it: [COMMENT.sub("", line) for line in lines_of(it)] for it in sources}
    cited = {}
    for file, text in lines.items():
        for number, line in enumerate(text):
            for name in CITES.findall(line):
                cited.setdefault(name, set()).add((file, number))
    for file in sorted(it for it in sources if it.parent.name == "proofs" and it.name not in FOR_THEMSELVES):
        for name, own in items_of(lines[file]).items():
            if all(at == file and number in own for at, number in cited.get(name, ())):
                yield f"{named(file)}: nothing cites {name}"


def is_there(page, name):
    """Whether what a page names in backquotes is a path from the top or in a crate, or no path of ours."""
    first = name.split("/")[0]
    if "/" not in name or " " in name or first not in PARTS:
        return True
    return any([*at.glob(name)] for at in (TOP, page.parent, *TOP.glob("crates/*")))


def named_in_pages():
    """What pages name in backquotes is there: paths, files of the crates, and in map and promises names in the sources."""
    sources = [it for kind in ("rt", "antt") for it in TOP.glob(f"crates/*/*/**/*.{kind}") if "out" not in it.parts]
    files = {end for it in sources for end in (it.name, f"{it.parent.name}/{it.name}")}
    words = {word for it in [*sources, TOP / "crates.txt"] for line in lines_of(it) for word in WORD.findall(line)}
    words |= {it.name for it in TOP.glob("tests/scenarios/*/*")} | {it.name for it in TOP.glob("tests/scenarios/*/*/*")}
    words |= {it.stem for it in sources}
    for page in sorted([*TOP.glob("*.md"), *TOP.glob("docs/*.md"), *TOP.glob("crates/*/README.md")]):
        for number, line in enumerate(lines_of(page), 1):
            for name in QUOTED.findall(line):
                is_file = name.endswith((".rt", ".antt"))
                is_known = name.split("::")[-1] in words or page.name not in NAMING or not NAME.fullmatch(name)
                if not (name in files or is_there(page, name) if is_file else is_known and is_there(page, name)):
                    yield f"{named(page)}:{number} names {name}, which is not there"


def pages_that_are_run():
    """Each page with commands is one that ./test runs."""
    script = (TOP / "tests" / "parts.py").read_text(encoding="utf-8")
    for page in sorted([*TOP.glob("*.md"), *TOP.glob("docs/*.md")]):
        if COMMANDS.search(page.read_text(encoding="utf-8")) and f'"{named(page)}"' not in script:
            yield f"{named(page)} has commands, and ./test doesn't run them"


def man_page():
    """The man page has each option that the help prints."""
    page = (TOP / "docs/panad.1").read_text(encoding="utf-8").replace("\\-", "-")
    for text in sorted(TOP.glob("tests/scenarios/*/help*/output")):
        yield from (f"docs/panad.1 lacks {it}, of {named(text)}" for it in OPTION.findall(text.read_text(encoding="utf-8")) if it not in page)


def missing_line(block, source):
    """The first line of a block that doesn't stand in the source behind those before it, but for blanks at its ends, or None."""
    rest = iter([line.strip() for line in lines_of(source)])
    return next((it for it in map(str.strip, block.splitlines()) if it and it not in rest), None)


def crate_pages():
    """Each crate's page is a screen at most, and each of its examples is lines of the source that it names, in order."""
    for page in sorted(TOP.glob("crates/*/README.md")):
        text = page.read_text(encoding="utf-8")
        words, lines = len(text.split()), len(text.splitlines())
        if words > MOST_WORDS or lines > MOST_LINES:
            yield f"{named(page)} has {words} words and {lines} lines, over {MOST_WORDS} or {MOST_LINES}"
        examples = SHOWN.findall(text)
        if not examples and not page.parent.name.endswith("_tests"):
            yield f"{named(page)} has no example"
        for block, source in examples:
            if not source or not (TOP / source).is_file():
                yield f"{named(page)}: no source stands under the example {block.splitlines()[0]}"
            elif missing := missing_line(block, TOP / source):
                yield f"{named(page)}: {source} doesn't have this line behind those before it: {missing}"


def shown_and_run():
    """The examples on the page of the clocks are ones that tests run."""
    clocks = TOP / "docs/CLOCKS.md"
    tests = "".join(it.read_text(encoding="utf-8") for it in sorted(TOP.glob("crates/pana_clock_tests/src/*.rt")))
    shown = EXAMPLE.findall(clocks.read_text(encoding="utf-8"))
    if not shown:
        yield f"{named(clocks)} has no example"
    # a part of a function's body is shown, without its indent
    yield from (f"{named(clocks)}: this example doesn't stand in the tests: {it.splitlines()[0]}" for it in shown if textwrap.indent(it, "    ") not in tests)


def recorded():
    """The recording of the first five minutes is the one that tools/record.py makes of README."""
    words = [sys.executable, "-B", str(TOP / "tools/record.py")]
    done = subprocess.run(words, stdout=subprocess.PIPE, check=True, timeout=60)
    if done.stdout != (TOP / "docs/five-minutes.svg").read_bytes():
        yield "docs/five-minutes.svg is another: python3 -B tools/record.py > docs/five-minutes.svg"


CHECKS = (long_sources, crates_and_folders, crate_folders, dead_links, citations, dialect, edits, uncited_lemmas, untried_names, named_in_pages, pages_that_are_run, man_page, crate_pages, shown_and_run, recorded, kit_line)


def main():
    outcomes = [passes(it) for it in CHECKS]
    print(f"{outcomes.count(True)} passed, {outcomes.count(False)} failed")
    return 1 if outcomes.count(False) else 0


if __name__ == "__main__":
    sys.exit(main())
