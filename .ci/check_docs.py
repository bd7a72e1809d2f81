#!/usr/bin/env python3
"""Checks the documents: the README's example is a worked row, links resolve, every crate is in the map, every entry of the definitions is in
their index, no sentence of the pages for users is long, and no measured figure stands in two pages."""
import os
import re
import shlex
import sys

TOP = os.path.dirname(os.path.dirname(os.path.abspath(__file__)))


def read(*path):
    with open(os.path.join(TOP, *path), encoding="utf-8") as file:
        return file.read()


def worked_row(text, name):
    """The words of a row's command line, its lines, and their replies; `text` is a file of rows."""
    lines = text[text.index(f"row {name}\n") :].split("\n\n")[0].splitlines()
    words = next(line for line in lines if line.startswith("words ")).removeprefix("words ").split("|")
    said = [line[4:].split(" -> ", 1) for line in lines if line.startswith("    ")]
    return words, [line for line, *_ in said], [reply for _, *told in said for reply in " | ".join(told).split(" | ") if told]


def shown_run(text):
    """The words, lines and replies of the README's example."""
    example = re.search(r"<!-- example:begin -->\n(.*?)<!-- example:end -->", text, re.S).group(1)
    lines = [line[4:] for line in example.splitlines()]
    start, end = lines.index("$ cat > script <<END") + 1, lines.index("END")
    command = ""
    rest = end + 1
    while not command or command.endswith("\\"):
        command = command.removesuffix("\\") + lines[rest].removeprefix("$ ").strip()
        rest += 1
    words = shlex.split(command)
    return words[2 : words.index("<")], lines[start:end], lines[rest:]


def example_faults():
    """The README's example against the worked row that runs it."""
    rows = os.path.join("crates", "worked_rows", "data", "readme.rows")
    if not os.path.exists(os.path.join(TOP, rows)):
        yield f"no {rows}"
        return
    row = worked_row(read(rows), "the_example_of_the_readme")
    for part, there, here in zip(("words", "lines", "replies"), row, shown_run(read("README.md"))):
        if there != here:
            yield f"README.md: the {part} of the example differ from {rows}"


def pages():
    for folder, folders, files in os.walk(TOP):
        folders[:] = [name for name in folders if name not in (".git", "out")]
        yield from (os.path.join(folder, name) for name in files if name.endswith(".md"))


def anchors(page):
    """The anchors of a page's headings, as GitHub makes them."""
    with open(page, encoding="utf-8") as file:
        for title in re.findall(r"^#+ (.*)$", file.read(), re.M):
            yield re.sub(r"[^\w\- ]", "", title.lower()).replace(" ", "-")


def link_faults():
    for page in pages():
        with open(page, encoding="utf-8") as file:
            text = re.sub(r"`[^`\n]*`", "", file.read())
        for link in re.findall(r"\]\(([^)\s]+)\)", text):
            if "://" in link:
                continue
            path, _, anchor = link.partition("#")
            target = os.path.normpath(os.path.join(os.path.dirname(page), path)) if path else page
            if not os.path.exists(target):
                yield f"{os.path.relpath(page, TOP)}: no {link}"
            elif anchor and target.endswith(".md") and anchor not in anchors(target):
                yield f"{os.path.relpath(page, TOP)}: no heading {link}"


def map_faults():
    crates = re.findall(r"^(\w+)[^#\n]*:", read("crates.txt"), re.M)
    for page in ("architecture.md", "claims.md"):
        text = read("docs", page)
        yield from (f"docs/{page}: no crate {name}" for name in crates if f"crates/{name}/" not in text)


def index_faults():
    """The entries of the definitions that their index lacks, and the names in it that have none."""
    index, _, entries = read("docs", "definitions.md").partition("## Index")[2].partition("\n## ")
    names = {name for line in re.findall(r"^\*\*([^*]+)\*\*", entries, re.M) for name in line.split(", ")}
    for name in sorted(names ^ {" ".join(name.split()) for name in re.findall(r"\[([^]]+)\]", index)}):
        yield f"docs/definitions.md: {name} is an entry or in the index, and not both"


SHORT = ("README.md", "docs/reference.md", "docs/durability.md", "docs/promise.md", "docs/tour.md")
MOST_WORDS = 30


def prose(text):
    """The paragraphs and list items of a page, each as one line: no code, table, heading, quotation or comment; a link is its text, and code in a line one word."""
    text = re.sub(r"```.*?```|<!-- example:begin -->.*?<!-- example:end -->|<!--.*?-->", "", text, flags=re.S)
    text = re.sub(r"`[^`\n]*`", "code", re.sub(r"\[([^]]*)\]\([^)]*\)", r"\1", text))
    text = re.sub(r"\*|^( {4}|\||#|>).*$", "", text, flags=re.M)
    text = re.sub(r"^(- |\d+\. )", r"\n", text, flags=re.M)
    return [" ".join(part.split()) for part in re.split(r"\n\s*\n", text) if part.strip()]


def long_sentences(text):
    for sentence in (s for part in prose(text) for s in re.split(r"(?<=[.!?])\s+", part)):
        if len(sentence.split()) > MOST_WORDS:
            yield sentence


def sentence_faults():
    for page in (page for page in SHORT if os.path.exists(os.path.join(TOP, page))):
        for sentence in long_sentences(read(page)):
            yield f"{page}: {len(sentence.split())} words: {sentence[:60]}.."


UNITS = r"(?:ns|µs|ms|s|sec(?:onds?)?|min(?:utes?)?|hours?|rows a second|[kKMG]i?B)"


def figures(text, bare=False):
    """The figures with a unit of time, rate or bytes; `bare` gives numbers with a comma or a point too, whose unit a table's head may say. A figure has two
    significant digits or more, a bare one three: fewer would meet by chance."""
    for number, unit in re.findall(rf"(?<![\w.,-])(\d[\d,]*(?:\.\d+)?)(?: ?({UNITS})\b)?(?![\w-])", text):
        number = number.rstrip(",")
        digits = len(number.replace(",", "").replace(".", "").strip("0"))
        if digits >= 2 and unit or bare and digits >= 3 and re.search(r"[.,]", number):
            yield number.replace(",", ""), unit


def figure_faults():
    """Figures that stand in two pages. What the reference says is a limit, which others may repeat."""
    measured = ("docs/speed.md", "docs/gate.md")
    texts = {os.path.relpath(page, TOP): read(page) for page in pages()}
    limits = set(re.findall(r"\d+", texts.pop("docs/reference.md", "").replace(",", "")))
    known = {number for page in measured for number, _ in figures(texts.get(page, ""), bare=True)}
    found = {}
    for page, text in texts.items():
        for number, unit in set(figures(text, bare=True)):
            if number not in limits and (unit or number in known):
                found.setdefault(number, set()).add(page)
    for number, places in sorted(found.items()):
        if len(places) > 1:
            yield f"{', '.join(sorted(places))}: the figure {number} stands in each"


def main():
    faults = [*example_faults(), *link_faults(), *map_faults(), *index_faults(), *sentence_faults(), *figure_faults()]
    print("\n".join(faults) or "documents: ok")
    sys.exit(bool(faults))


if __name__ == "__main__":
    main()
