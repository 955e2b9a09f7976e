#!/usr/bin/env python3
"""Lists the names that definitions of several crates have, which a reader who searches for one finds twice. Run it by hand.

usage: tools/names.py [FOLDER]
FOLDER is the repository, in which `crates/*/specs/*.antt` are read. Each line has a name and its crates; the last line counts.
A variant of a type is named with its type, and isn't counted.
"""
import collections
import pathlib
import re
import sys

DEFINITION = re.compile(r"^(?:(?:abbrev|unfoldable|opaque)\s+)?pub\s+(?:(?:record|data)\s+)?([^\s:({]+)", re.MULTILINE)
OTHERS = {"mod", "use", "record", "data"}


def main():
    top = pathlib.Path(sys.argv[1] if len(sys.argv) > 1 else pathlib.Path(__file__).parent.parent)
    crates = collections.defaultdict(set)
    for file in sorted(top.glob("crates/*/specs/**/*.antt")):
        crate = file.relative_to(top).parts[1]
        for name in DEFINITION.findall(file.read_text(encoding="utf-8")):
            if name not in OTHERS:
                crates[name].add(crate)
    several = {name: where for name, where in crates.items() if len(where) > 1}
    for name, where in sorted(several.items(), key=lambda item: (-len(item[1]), item[0])):
        print(f"{name}: {', '.join(sorted(where))}")
    print(f"{len(several)} of {len(crates)} names stand in several crates")


if __name__ == "__main__":
    main()
