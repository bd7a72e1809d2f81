#!/usr/bin/env python3
"""What crates.txt costs the gate before it proves anything.

    python3 bench/crate_paths.py

`rt ci` looks up what stands below a crate along every path through crates.txt, and does so for each file of the crate and for each name that its
clauses import. This counts the paths of each crate and these look-ups, and tells which entries add most: their sum is about a microsecond each.
"""
import functools
import pathlib
import re

ROOT = pathlib.Path(__file__).resolve().parent.parent
IMPORT = re.compile(r"ghost use [\w.]+\.(?:\{([^}]*)\}|\w+(?: as \w+)?);")
# How often `rt ci` looks at a crate whatever stands in it.
ALWAYS = 9


def entries():
    lines = (ROOT / "crates.txt").read_text().splitlines()
    listed = {line.split(":")[0]: line.split(":")[1].split() for line in lines if line and not line.startswith("#")}
    return {crate: [it for it in below if it in listed] for crate, below in listed.items()}


def looks(crate):
    """How often `rt ci` looks at what stands below the crate."""
    texts = [file.read_text() for file in (ROOT / "crates" / crate / "src").rglob("*.rt")]
    names = sum(len(it[1].split(",")) if it[1] else 1 for text in texts for it in IMPORT.finditer(text))
    return ALWAYS + len(texts) + names


def main():
    below = entries()
    above = {crate: [it for it in below if crate in below[it]] for crate in below}
    looked = {crate: looks(crate) for crate in below}

    @functools.cache
    def paths(crate):
        return 1 + sum(map(paths, below[crate]))

    @functools.cache
    def weight(crate):
        return looked[crate] + sum(map(weight, above[crate]))

    whole = sum(looked[crate] * paths(crate) for crate in below)
    print(f"{sum(map(paths, below)):,} paths, {whole:,} steps along them")
    print(f"{'crate':<20}{'paths':>12}{'looks':>8}{'share':>8}")
    for crate in sorted(below, key=lambda it: -looked[it] * paths(it))[:10]:
        print(f"{crate:<20}{paths(crate):>12,}{looked[crate]:>8}{looked[crate] * paths(crate) / whole:>8.1%}")
    print(f"\n{'entry':<40}{'share':>8}")
    costs = {(crate, it): weight(crate) * paths(it) / whole for crate in below for it in below[crate]}
    for (crate, it), share in sorted(costs.items(), key=lambda item: -item[1])[:10]:
        print(f"{crate + ': ' + it:<40}{share:>8.1%}")


main()
