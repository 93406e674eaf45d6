#!/usr/bin/env python3
"""Spells the repository's own definitions and lemmas as today's Rattle does.

A name of ours with a dash: in lower case it takes underscores (max-rows, max_rows), with a capital it becomes one
word in camel case (Same-pair, SamePair). Names that Rattle makes (of goals, steps and branches) and names of its
library stay. Run once, at the top of the repository, right after the kit's own script; see docs/PORT.md.
"""

import os
import re
import sys

# names that would fall together with another name of ours, and what they are called instead
APART = {"Same-name": "IsSameName", "Named-step": "named_step"}
# the beginnings of names that Rattle makes
MADE = re.compile(r"(returns|loop|invariant|decreases|overflow|bounds|if|in|in_ok|in_err|then|else|match|After)-|.*-requires(-|$)|invariant_of-")
PART = r"[A-Za-z0-9_ℕ⊎]+"
NAME = PART + r"(?:-" + PART + r")+"
TOKEN = re.compile(r"(?<![\w'-])" + NAME + r"(?![\w'-])")
DEFINED = re.compile(r"^\s*(?:abbrev |unfoldable )?(?:pub )?(?:record |data )?(" + NAME + r")(?=\s|:|$)", re.M)
BOUND = re.compile(r"(?:let |[λ(]\s*(?:\w+ )*)(" + NAME + r")(?=[ :.])")
RENAMED = re.compile(r" as (" + NAME + r")(?=[,}])")
TAKEN = re.compile(r"use (?!Rattle\.(?:%s)\.)[\w.+]+\.\{([^}]*)\}")


def files(top):
    for folder, below, names in os.walk(os.path.join(top, "crates")):
        below[:] = sorted(d for d in below if d != "out")
        for name in sorted(names):
            if name.endswith((".rt", ".antt")):
                yield os.path.join(folder, name)


def spelled(name):
    if name in APART:
        return APART[name]
    if name[0].isupper():
        return "".join(part[0].upper() + part[1:] for part in name.split("-"))
    return name.replace("-", "_")


def main():
    texts = {path: open(path, encoding="utf-8").read() for path in files(".")}
    ours = "|".join(sorted(os.listdir("crates")))
    of_library = set()
    for text in texts.values():
        for m in re.finditer(TAKEN.pattern % ours, text):
            of_library |= {name.strip().split(" as ")[0] for name in m.group(1).split(",")}
    own = set()
    for path, text in texts.items():
        own |= set(RENAMED.findall(text))
        if path.endswith(".antt"):
            bare = re.sub(r"--.*", "", text)
            own |= set(DEFINED.findall(bare)) | set(BOUND.findall(bare))
    own = {name for name in own if name not in of_library and not MADE.match(name)}
    words = set()
    for text in texts.values():
        words |= set(re.findall(r"[A-Za-z_][\w']*", text))
    for name in sorted(own):
        if spelled(name) in words:
            print(f"look: {name} becomes {spelled(name)}, which stands somewhere already")
    for path, text in texts.items():
        new = TOKEN.sub(lambda m: spelled(m.group(0)) if m.group(0) in own else m.group(0), text)
        if new != text:
            with open(path, "w", encoding="utf-8") as out:
                out.write(new)
    print(f"{len(own)} names of ours with a dash")
    return 0


if __name__ == "__main__":
    sys.exit(main())
