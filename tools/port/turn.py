#!/usr/bin/env python3
"""Runs the kit's port.py at the top of this repository as it stood before the port: once, with everything committed.

The kit's upgrade.py leaves out its steps for older spellings where antt's code has one of the library's new names bare. This repository has one such
word, the function `turn_two` that crates/turns/proofs/OneOutcome.antt names, so port.py as it is would leave the tree half turned. This runs a copy
of the kit's folder port/ in which that guess answers that the tree is old; nothing else of it is changed.
"""
import os
import shutil
import subprocess
import sys
import tempfile

KIT = os.path.dirname(os.path.dirname(os.path.realpath(shutil.which("rt"))))
UPGRADE = "port/notes/2026-11-16-one-script-upgrades-the-surface/upgrade.py"

with tempfile.TemporaryDirectory() as top:
    shutil.copytree(f"{KIT}/port", f"{top}/port")
    for it in sorted(os.listdir(KIT)):
        if it != "port":
            os.symlink(f"{KIT}/{it}", f"{top}/{it}")
    with open(f"{top}/{UPGRADE}", encoding="utf-8") as f:
        text = f.read()
    old = "    old = [it for it in copies if not is_respelled(read_below(it))]\n"
    if text.count(old) != 1:
        sys.exit("turn.py: the kit's upgrade.py is another one")
    with open(f"{top}/{UPGRADE}", "w", encoding="utf-8") as f:
        f.write(text.replace(old, "    old = list(copies)\n"))
    sys.exit(subprocess.run([sys.executable, f"{top}/port/port.py"]).returncode)
