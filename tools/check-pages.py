#!/usr/bin/env python3
"""Checks the pages for dead links and long sentences. Run it at the top of the repository.

    check-pages [--comments] [FILE..]

A page is README.md, CHANGES.md or a file docs/*.md. Of each it finds links to files that are not there, links to anchors that no
heading has, pictures .svg that no case prints, and sentences of more than 35 words. Of the pages that show the commands it also finds blocks ```text that no case of
crates/test_runner/data/*.sessions has, and no example: what is shown there is what the merge gate compares. A form, with words that stand
for others, is in a plain block. A block that begins with `$ ./bench` shows commands, each with all that it prints and says. Of the map in docs/ARCHITECTURE.md it finds rows that are not by crates.txt: another group, or another
list of direct dependencies. Of README.md and docs/DEFINITIONS.md it finds wrong numbers of lines of definitions. Of a table of options, which follows a line
`<!-- options of COMMAND -->`, it finds the first line that is not as the command says it. It finds a VERSION that the program does not print. With --comments it also
finds such sentences in the comments `//!` and `///` of crates/*/src. With file names, it checks these alone: pages, and comments of
files `.rt`.

It prints a line for each finding, `FILE:LINE: what`, and ends with status 1 where it found something.

A code span counts as one word, and in a table as none, since tables list names. Blocks of code are skipped. A sentence ends at its
full stop, and also where its paragraph, its list item, its heading or its table cell ends."""
import argparse
import collections
import glob
import importlib
import itertools
import os
import re
import signal
import sys
import urllib.parse

sys.dont_write_bytecode = True

from specified import counts

command_pages = importlib.import_module("command-pages")

MOST_WORDS = 35
# The pages whose blocks of text stand in cases or examples.
SHOWING = (
    "README.md", *(f"docs/{it}.md" for it in ("ABI", "CALLS", "CRASHES", "DEBUGGER", "DISK", "EXEC", "EXPLORE", "IMAGES", "PAGES", "PICTURES", "SCRIPTS", "SOURCES", "TEACHING")),
)
CASES = "crates/test_runner/data/*.sessions"
EXAMPLES = "crates/test_runner/data/examples/*.[sf]*"
# The page with the map of the crates, the file that lists them, and the crate that no row of the map names.
MAP = "docs/ARCHITECTURE.md"
CRATES = "crates.txt"
LEFT_OUT = "byte_list"
# The pages that say how many lines the definitions have.
COUNTING = ("README.md", "docs/DEFINITIONS.md")
# The cases of what the program says of itself.
CASES_OF_HELP = "crates/test_runner/data/help.sessions"

FENCE = re.compile(r"\s*(```+|~~~+)")
HEADING = re.compile(r" {0,3}#{1,6}\s+(.*?)(?:\s+#+)?\s*$")
LIST_ITEM = re.compile(r"\s*(?:[-*+]|\d+[.)])\s+")
TABLE_RULE = re.compile(r"[\s|:-]+$")
CELL_END = re.compile(r"(?<!\\)\|")
CODE_SPAN = re.compile(r"(?<!`)(`+)(?!`)(.+?)(?<!`)\1(?!`)", re.DOTALL)
HTML_COMMENT = re.compile(r"<!--.*?-->", re.DOTALL)
LINK = re.compile(r"\[[^\[\]]*(\]\(\s*<?([^\s<>()]*(?:\([^\s()]*\)[^\s<>()]*)*)>?(?:\s+\"[^\"]*\")?\s*\))")
LINK_BY_NAME = re.compile(r" {0,3}\[[^\[\]]+\]:\s+(\S+)")
NAMED_PLACE = re.compile(r"<a\s+(?:id|name)=\"([^\"]+)\"")
SENTENCE_END = re.compile(r"(?<![.!?])[.!?][)\]\"'*_]*(?=\s|$)")
SHORT_FORMS = ("e.g.", "i.e.", "cf.", "vs.")
GROUP = re.compile(r"# ([^:]+): ")
CRATE = re.compile(r"([a-z0-9_]+)[^:]*:(.*)")
MAP_ROW = re.compile(r"\| `([a-z0-9_]+)` \| ([^|]*)\|")
COMMAND = re.compile(r"\$ \./bench (.*?)(; echo \$\?)?$")
MARK = re.compile(r"(?:>|!!|! \d+) ?")
DOC_COMMENT = re.compile(r"\s*//(?:!|/(?!/)) ?(.*)")


class Block:
    """A text that no sentence goes beyond: a paragraph, a list item, a heading or a table cell."""

    def __init__(self, line, text, kind):
        self.line, self.text, self.kind = line, text, kind

    def line_of(self, offset):
        return self.line + self.text.count("\n", 0, offset)


def blocks_of(lines):
    """Returns the blocks of a text, whose lines come with their numbers."""
    blocks, fence, is_open = [], None, False
    for number, line in lines:
        mark = FENCE.match(line)
        if fence:
            if mark and mark[1].startswith(fence) and not line[mark.end():].strip():
                fence = None
            continue
        line = re.sub(r"^\s*(?:>\s?)+", "", line)
        item, heading = LIST_ITEM.match(line), HEADING.match(line)
        if mark:
            fence, is_open = mark[1], False
        elif not line.strip():
            is_open = False
        elif heading:
            blocks.append(Block(number, heading[1], "heading"))
            is_open = False
        elif line.lstrip().startswith("|"):
            if not TABLE_RULE.match(line):
                blocks.extend(Block(number, it, "cell") for it in CELL_END.split(line))
            is_open = False
        elif item:
            blocks.append(Block(number, line[item.end():], "item"))
            is_open = True
        elif is_open:
            blocks[-1].text += "\n" + line
        else:
            blocks.append(Block(number, line, "paragraph"))
            is_open = True
    return blocks


def blank(found, by):
    """Returns the text found with each of its characters, but for line ends, replaced."""
    return re.sub(r"[^\n]", by, found[0])


def without_code(text, by):
    return CODE_SPAN.sub(lambda it: blank(it, by), HTML_COMMENT.sub(lambda it: blank(it, " "), text))


def sentences(block):
    """Yields the sentences of a block, each with the place where it begins."""
    text = without_code(block.text, " " if block.kind == "cell" else "x")
    text = LINK.sub(lambda it: it[0][:it.start(1) - it.start()] + "-" * (it.end(1) - it.start(1)), text)
    start = 0
    for end in SENTENCE_END.finditer(text):
        if not text[start:end.end()].endswith(SHORT_FORMS):
            yield start, text[start:end.end()]
            start = end.end()
    yield start, text[start:]


def long_sentences(blocks):
    """Yields the line and the number of words of each sentence that is too long."""
    for block in blocks:
        for start, sentence in sentences(block):
            words = len(re.findall(r"\S*\w\S*", sentence))
            if words > MOST_WORDS:
                yield block.line_of(start + len(sentence) - len(sentence.lstrip())), f"a sentence of {words} words"


def links(blocks):
    """Yields the line and the target of each link."""
    for block in blocks:
        text = without_code(block.text, "x")
        for it in LINK.finditer(text):
            yield block.line_of(it.start()), it[2]
        by_name = LINK_BY_NAME.match(text)
        if by_name:
            yield block.line, by_name[1]


def anchors(blocks):
    """Returns the anchors of a page, as GitHub makes them: of headings with one text, the later ones are numbered."""
    found = set()
    for block in blocks:
        found.update(NAMED_PLACE.findall(block.text))
        if block.kind == "heading":
            text = re.sub(r"!?\[([^\[\]]*)\]\([^()]*\)", r"\1", block.text).lower()
            plain = re.sub(r"[^\w\- ]", "", text).replace(" ", "-")
            anchor, count = plain, 0
            while anchor in found:
                count += 1
                anchor = f"{plain}-{count}"
            found.add(anchor)
    return found


def texts_of(lines):
    """Yields the blocks that are marked as text, each as the line where it begins and its own lines."""
    text = None
    for number, line in lines:
        if text is None:
            text = (number, []) if line == "```text" else None
        elif line == "```":
            yield text
            text = None
        else:
            text[1].append(line)


def commands_of(text):
    """Returns each command of a block: its words, the lines after it, and last its status, where that is shown."""
    found = []
    for line in text:
        command = COMMAND.match(line)
        if command:
            found.append((command[1], bool(command[2]), []))
        else:
            found[-1][2].append(line)
    return found


def is_run_in_cases(words, with_status, lines, cases):
    """Whether a run with these words has a case in which it prints and says these lines, the last of which may be its status."""
    for run in re.finditer(rf"^\$ {re.escape(words)}\n((?:(?:>|!!?)(?: .*)?\n)*)", cases, re.MULTILINE):
        told = run[1].splitlines()
        status = next((line.split()[1] for line in told if line.startswith("! ")), "0")
        shown = [MARK.sub("", line, count=1) for line in told if not re.fullmatch(r"! \d+", line)]
        if shown + [status] * with_status == lines:
            return True
    return False


def is_in_cases(text, cases):
    """Whether a text stands in cases, as what is read, printed, said or kept in a file. Its lines that begin with `>` are input."""
    if text and COMMAND.match(text[0]):
        return all(is_run_in_cases(*command, cases) for command in commands_of(text))
    typed = [line[2:] for line in text if line.startswith("> ")]
    shown = [line for line in text if not line.startswith("> ")]
    forms = [
        "".join(f"> {line}\n" for line in shown),
        "".join(f"< {line}\n" for line in shown),
        "".join(f"| {line}".rstrip() + "\n" for line in shown),
        "".join(f"!! {line}\n" for line in shown),
    ]
    forms += [f"! {status} " + "\n!! ".join(shown) + "\n" for status in range(8)]
    return any(f"\n{form}" in cases for form in forms) and all(f"\n< {line}\n" in cases for line in typed)


def content_of(pattern):
    """Returns what the files of a pattern hold, one after another."""
    content = ""
    for path in sorted(glob.glob(pattern)):
        with open(path, encoding="utf-8") as file:
            content += file.read()
    return content


def numbered_lines(path):
    with open(path, encoding="utf-8") as file:
        return list(enumerate(file.read().split("\n"), 1))


class Crates:
    """The crates of crates.txt: the group of each, and which others it names."""

    def __init__(self, path):
        self.groups, self.named, group = {}, {}, None
        for _, line in numbered_lines(path):
            head, crate = GROUP.match(line), CRATE.match(line)
            if head:
                group = head[1]
            elif crate:
                self.groups[crate[1]], self.named[crate[1]] = group, crate[2].split()
        self.named = {crate: [it for it in named if it in self.groups] for crate, named in self.named.items()}

    def below(self, crate):
        """Returns the crates on which a crate stands."""
        return set(self.named[crate]).union(*map(self.below, self.named[crate]))

    def used(self, crate):
        """Returns the crates that a crate names, without those that another one implies."""
        implied = set().union(*map(self.below, self.named[crate]))
        return {it for it in self.named[crate] if it != LEFT_OUT and it not in implied}

    def findings(self, page):
        """Yields the rows of the map that say otherwise."""
        group = None
        for number, line in numbered_lines(page):
            heading, row = HEADING.match(line), MAP_ROW.match(line)
            if heading:
                group = heading[1]
            elif row and row[1] in self.groups:
                used = self.used(row[1])
                if set(re.findall(r"`([^`]+)`", row[2])) != used:
                    yield number, f"`{row[1]}` uses {' '.join(sorted(used)) or 'no crate'}, by {CRATES}"
                if group != self.groups[row[1]]:
                    yield number, f"`{row[1]}` is of the group {self.groups[row[1]]}, by {CRATES}"


class Definitions:
    """How many lines the definitions of each crate have, as pages say it."""

    IN_ALL = re.compile(r"(\d[\d,]*) lines(?: of definitions|, comments and imports included)")
    OF_CRATE = re.compile(r"`(\w+)` ([\d,]*\d)")
    HEAD = "| Section | Lines of each crate |"

    def __init__(self):
        self.lines = collections.Counter()
        for path in glob.glob("crates/*/specs/*.antt"):
            with open(path, encoding="utf-8") as file:
                self.lines[path.split("/")[1]] += file.read().count("\n")

    def findings(self, page):
        named, is_table, head = set(), False, 0
        for line, text in numbered_lines(page):
            is_table = text.startswith("|") and (is_table or text == self.HEAD)
            head = line if text == self.HEAD else head
            for it in self.IN_ALL.finditer(text):
                if int(it[1].replace(",", "")) != self.lines.total():
                    yield line, f"{it[1]} lines of definitions, which are {self.lines.total():,}"
            for name, count in self.OF_CRATE.findall(text) if is_table else ():
                named.add(name)
                if int(count.replace(",", "")) != self.lines[name]:
                    yield line, f"{count} lines of definitions of {name}, which are {self.lines[name]:,}"
        for name in sorted((+self.lines).keys() - named) if head else ():
            yield head, f"no row has the {self.lines[name]:,} lines of definitions of {name}"


def findings_of_code(page):
    """Finds wrong numbers of lines of code, and of those that contracts speak of."""
    text = "".join(f"{it}\n" for _, it in numbered_lines(page))
    for it in re.finditer(r"Of ([\d,]+) lines of code, contracts say what ([\d,]+) do", text):
        found = [sum(pair[place] for pair in counts().values()) for place in (0, 1)]
        if [int(number.replace(",", "")) for number in it.groups()] != found:
            yield text[: it.start()].count("\n") + 1, f"{' and '.join(it.groups())} lines of code, by tools/specified.py {found[0]:,} and {found[1]:,}"


def findings_of_tables(page):
    """Finds tables of options that are not their command's, by the first line that differs."""
    for start, command, told, wanted in command_pages.tables_of("".join(f"{it}\n" for _, it in numbered_lines(page))):
        for place, (line, want) in enumerate(itertools.zip_longest(told, wanted)):
            if line != want:
                says = want or "no further line"
                yield start + place, f"an option table that is not the command's (tools/command-pages.py tables); {command} says: {says}"
                break


class Pages:
    def __init__(self):
        self.anchors = {}

    def has_anchor(self, path, anchor):
        if not path.endswith(".md"):
            line = re.fullmatch(r"L(\d+)(?:-L\d+)?", anchor)
            return os.path.isfile(path) and line is not None and int(line[1]) <= len(numbered_lines(path))
        if path not in self.anchors:
            self.anchors[path] = anchors(blocks_of(numbered_lines(path)))
        return anchor in self.anchors[path]

    def fault_of(self, page, target):
        """Returns why a link of a page leads nowhere, or None."""
        if re.match(r"[a-z][a-z0-9+.-]*:", target, re.IGNORECASE):
            return None
        path, _, anchor = map(urllib.parse.unquote, target.partition("#"))
        path = os.path.normpath(os.path.join(os.path.dirname(page), path)) if path else page
        parts = path.split(os.sep)
        if parts[0] in ("..", ""):
            return f"a link out of the repository, {target}"
        if not os.path.exists(path):
            return f"a link to a file that is not there, {target}"
        if any(os.path.islink(os.sep.join(parts[:it])) for it in range(1, len(parts))):
            return f"a link through a symbolic link, which GitHub does not follow, {target}"
        if anchor and not self.has_anchor(path, anchor):
            return f"a link to an anchor that is not there, {target}"
        if path.endswith(".svg") and not is_in_cases([line for _, line in numbered_lines(path)[:-1]], content_of(CASES)):
            return f"a picture that no case prints, {target}"
        return None

    def findings(self, page):
        blocks = blocks_of(numbered_lines(page))
        yield from long_sentences(blocks)
        for line, target in links(blocks):
            fault = self.fault_of(page, target)
            if fault:
                yield line, fault
        if page in SHOWING:
            cases, examples = content_of(CASES), content_of(EXAMPLES)
            for line, text in texts_of(numbered_lines(page)):
                if not is_in_cases(text, cases) and "\n" + "\n".join(text) + "\n" not in f"\n{examples}":
                    yield line, "a text that no case has"
        yield from findings_of_tables(page)
        if page == MAP and os.path.isfile(CRATES):
            yield from Crates(CRATES).findings(page)
        if page in COUNTING:
            yield from Definitions().findings(page)
            yield from findings_of_code(page)


def finding_of_version():
    """Says where the file VERSION and what the program prints are not the same."""
    with open("VERSION", encoding="utf-8") as file:
        version = file.read().strip()
    with open(CASES_OF_HELP, encoding="utf-8") as file:
        told = f"> bench {version}\n" in file.read()
    return [] if told else [f"VERSION:1: {version}, which no case of {CASES_OF_HELP} prints"]


def findings_of_comments(path):
    """Yields the long sentences in the comments of a source."""
    comments = ((number, DOC_COMMENT.match(line)) for number, line in numbered_lines(path))
    # A line of code ends a comment, as an empty line does.
    yield from long_sentences(blocks_of((number, it[1] if it else "") for number, it in comments))


def main():
    signal.signal(signal.SIGPIPE, signal.SIG_DFL)
    asked = argparse.ArgumentParser(description=__doc__.partition("\n")[0])
    asked.add_argument("--comments", action="store_true", help="check the comments of crates/*/src, too")
    asked.add_argument("files", nargs="*", metavar="FILE", help="a page, or a source .rt, to check alone")
    words = asked.parse_args()
    files = [os.path.relpath(it) for it in words.files]
    if not files:
        if not os.path.isfile("README.md"):
            asked.error("run it at the top of the repository")
        files = [it for it in ("README.md", "CHANGES.md", *sorted(glob.glob("docs/*.md"))) if os.path.isfile(it)]
    if words.comments and not words.files:
        files += sorted(glob.glob("crates/*/src/**/*.rt", recursive=True))
    pages, count = Pages(), 0
    for path in files:
        for line, what in sorted(findings_of_comments(path) if path.endswith(".rt") else pages.findings(path)):
            print(f"{path}:{line}: {what}")
            count += 1
    for finding in [] if words.files else finding_of_version():
        print(finding)
        count += 1
    return 1 if count else 0


if __name__ == "__main__":
    sys.exit(main())
