#!/usr/bin/env python3
"""skel.py CRATE writes the proof files that `rt dev CRATE` prints below 'help: write PATH with these lines', unless the file exists."""
import os
import re
import subprocess
import sys

ran = subprocess.run(["rt", "dev", sys.argv[1]], capture_output=True, text=True, env=dict(os.environ, RT_CUT="0"))
file, lines = None, []


def write():
    if file and not os.path.exists(file):
        os.makedirs(os.path.dirname(file), exist_ok=True)
        open(file, "w").write("\n".join(lines).rstrip() + "\n")
        print("wrote", file)


for line in (ran.stdout + ran.stderr).split("\n"):
    if line.startswith("fn ") or "error" in line or line.startswith("logic="):
        print(line[:300])
    if m := re.match(r"help: write (\S+) with these lines", line):
        write()
        file, lines = m.group(1), []
    elif file and (line.startswith("    ") or not line.strip()):
        lines.append(line[4:])
    else:
        write()
        file = None
write()
