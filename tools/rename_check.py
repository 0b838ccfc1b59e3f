#!/usr/bin/env python3
"""Renames the crate `check` to `checker`, since today's Rattle has a library `check` of its own.

usage: python3 tools/rename_check.py      at the top of the repository, once, after tools/respell.py
"""
import glob
import os
import re

os.rename("crates/check", "crates/checker")
with open("crates.txt", encoding="utf-8") as f:
    text = f.read()
with open("crates.txt", "w", encoding="utf-8") as f:
    f.write(re.sub(r"(?m)(?<=[\n ])check(?=[ :\n])", "checker", text))
for path in glob.glob("crates/**/*", recursive=True):
    if path.endswith((".rt", ".antt")) and f"{os.sep}out{os.sep}" not in path:
        with open(path, encoding="utf-8") as f:
            text = f.read()
        new = text.replace("Rattle.check.", "Rattle.checker.")
        new = re.sub(r"(?m)^((?:ghost |pub )?use )check::", r"\1checker::", new)
        if new != text:
            with open(path, "w", encoding="utf-8") as f:
                f.write(new)
