#!/usr/bin/env python3
"""Names each crate's module `fault` `faults`: the check refuses a module that has the name of a library which its crate uses, and `fault` is one.

usage: python3 tools/rename_fault_modules.py     at the top, once
"""

import glob
import os
import re

from respell import rewrite

CRATES = "draft job output page query sets table text tray".split()


def turn(text):
    text = re.sub(r"(?m)^((?:pub )?mod) fault;", r"\1 faults;", text)
    text = re.sub(r"\b(crate|" + "|".join(CRATES) + r")::fault::", r"\1::faults::", text)
    text = re.sub(r"\bRattle\.(" + "|".join(CRATES) + r")\.(specs\.declared|proofs)\.fault\.", r"Rattle.\1.\2.faults.", text)
    return re.sub(r"(?m)^file: src/fault\.rt$", "file: src/faults.rt", text)


def main():
    for top in ("crates", "unfinished/crates"):
        for path in sorted(glob.glob(top + "/**/*", recursive=True)):
            if os.path.isfile(path) and "/out/" not in path:
                rewrite(path, turn)
        for path in glob.glob(top + "/*/src/fault.rt*"):
            os.rename(path, path.replace("/src/fault.rt", "/src/faults.rt"))


if __name__ == "__main__":
    main()
