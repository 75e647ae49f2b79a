#!/usr/bin/env python3
"""Writes the library's `AllByRecursion` under its own name: `All` is another word of the library's.

    python3 tools/plain_words.py [FOLDER]        at the top of the repository, once, after respell.py
"""
import os
import re
import sys

FOLDER = sys.argv[1] if len(sys.argv) > 1 else "crates"
ALIAS = "AllByRecursion as All"
WORD = re.compile(r"(?<![\w'·.-])All(?![\w'·-])")


def main():
    for folder, folders, names in os.walk(FOLDER):
        folders[:] = [name for name in folders if name != "out"]
        for name in names:
            path = os.path.join(folder, name)
            if not name.endswith((".rt", ".antt")):
                continue
            with open(path, encoding="utf-8") as file:
                old = file.read()
            if ALIAS not in old:
                continue
            lines = old.replace(ALIAS, "AllByRecursion").split("\n")
            new = "\n".join(
                line if re.match(r"\s*(--|//)", line) else WORD.sub("AllByRecursion", line) for line in lines
            )
            with open(path, "w", encoding="utf-8") as file:
                file.write(new)


if __name__ == "__main__":
    main()
