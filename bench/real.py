#!/usr/bin/env python3
"""bench/real.py MESSAGES: of a file with a line of JSON a message, lines for the bench: name, root, modes, book and message in hex, with tabs between them."""
import json
import sys

names = set()
for line in open(sys.argv[1], encoding="utf-8"):
    m = json.loads(line)
    name = m["name"]
    while name in names:
        name += "'"
    names.add(name)
    print(name, m["root"], ",".join(m["modes"]), m["book"], m["message"], sep="\t")
