#!/usr/bin/env python3
"""layers.py: derives the graph of the crates in docs/LAYERS.md from crates.txt.

Writes the text between the two marks in LAYERS.md anew: the crates by layer, highest first, each with its height (how many crates
stand on one another up to it) and the crates that it stands on directly; then the longest chain. A crate on which another one
below stands too is left out, and so are the suites of tests and the toolchain. With --check it writes nothing, and fails if
the text differs."""
import os
import sys

HERE = os.path.dirname(os.path.abspath(__file__))
CRATES = os.path.join(os.path.dirname(HERE), "crates.txt")
PAGE = os.path.join(HERE, "LAYERS.md")
BEGIN = "<!-- derived from crates.txt by docs/layers.py -->"
END = "<!-- end of what is derived -->"
WIDTH = 140


def read_layers(path):
    """The layers, lowest first: the comment above, and the crates with all that they name."""
    layers = []
    with open(path) as lines:
        for line in map(str.strip, lines):
            if line.startswith("#"):
                layers.append((line.lstrip("# ").rstrip("."), {}))
            elif line:
                name, _, deps = line.partition(":")
                layers[-1][1][name.split()[0]] = deps.split()
    return [(title, crates) for title, crates in layers if crates]


def below(crate, named, found):
    """Adds all crates below this one."""
    for dep in named[crate]:
        if dep not in found:
            found.add(dep)
            below(dep, named, found)
    return found


def direct(crate, named):
    """The crates that it stands on, without those that one of them stands on."""
    far = set()
    for dep in named[crate]:
        below(dep, named, far)
    return [dep for dep in named[crate] if dep not in far]


def chain(crate, named):
    """The longest chain of crates that ends in this one, lowest first."""
    longest = max((chain(dep, named) for dep in named[crate]), key=len, default=[])
    return longest + [crate]


def rows(layers, named):
    """A line for each crate, highest layer first."""
    wide = max(map(len, named))
    for title, crates in reversed(layers):
        yield f"-- {title}"
        for crate in reversed(crates):
            line = f"{len(chain(crate, named)):3}  {crate:{wide}}  {' '.join(direct(crate, named))}"
            while len(line) > WIDTH:
                cut = line.rfind(" ", 0, WIDTH)
                yield line[:cut].rstrip()
                line = " " * (wide + 7) + line[cut + 1:]
            yield line.rstrip()


def derived(layers):
    """The text between the marks."""
    everything = {name: deps for _, crates in layers for name, deps in crates.items()}
    named = {name: [dep for dep in deps if dep in everything] for name, deps in everything.items()}
    code = {name: deps for name, deps in named.items() if not name.endswith("_tests")}
    kept = [(title, {name: code[name] for name in crates if name in code}) for title, crates in layers]
    kept = [(title, crates) for title, crates in kept if crates]
    longest = max((chain(name, code) for name in code), key=len)
    text = ["```", *rows(kept, code), "```", ""]
    text.append(f"The longest chain has {len(longest)} crates: {', '.join(f'`{name}`' for name in longest)}.")
    return "\n".join(text)


def main():
    with open(PAGE) as text:
        page = text.read()
    front, rest = page.split(BEGIN)
    _, back = rest.split(END)
    new = f"{front}{BEGIN}\n{derived(read_layers(CRATES))}\n{END}{back}"
    if "--check" in sys.argv[1:]:
        sys.exit("docs/LAYERS.md: the graph is not that of crates.txt" if new != page else 0)
    with open(PAGE, "w") as out:
        out.write(new)


main()
