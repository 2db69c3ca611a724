#!/usr/bin/env python3
"""Writes the library's AllByRecursion under its own name, where port.py imports it as All: the gate keeps All for the library's.

usage: python3 tools/respell_words.py     at the top of the repository, once, after tools/respell.py
"""
import os
import re

for folder, folders, names in os.walk("crates"):
    folders[:] = [x for x in folders if x != "out"]
    for name in names:
        path = os.path.join(folder, name)
        if not name.endswith((".antt", ".rt", ".edit")):
            continue
        with open(path, encoding="utf-8") as f:
            old = f.read()
        if "AllByRecursion as All" not in old:
            continue
        text = old.replace("AllByRecursion as All", "AllByRecursion")
        text = re.sub(r"(?<![\w'«.-])All(?![\w'»-])", "AllByRecursion", text)
        with open(path, "w", encoding="utf-8") as f:
            f.write(text)
