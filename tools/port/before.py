#!/usr/bin/env python3
"""Run once at the top, before the kit's port.py: an alias of a module in an .antt file that has an underscore (use .. as count_index) is spelt
call-count-index, since port.py takes a file with a library's name in snake case for one that is turned already. after.py brings the aliases back."""

import os
import re

for folder, dirs, files in os.walk("crates"):
    dirs[:] = sorted(d for d in dirs if d != "out")
    for name in sorted(files):
        path = os.path.join(folder, name)
        if not name.endswith(".antt"):
            continue
        with open(path, encoding="utf-8") as f:
            text = f.read()
        turned = text
        for alias in re.findall(r"(?m)^use Rattle\S+ as (\w*_\w*)$", text):
            call = "call-" + alias.replace("_", "-")
            turned = re.sub(rf"( as ){alias}$", rf"\g<1>{call}", turned, flags=re.M)
            turned = re.sub(rf"(?<![\w.·'-]){alias}\.(?=[A-Z])", f"{call}.", turned)
        if turned != text:
            with open(path, "w", encoding="utf-8") as f:
                f.write(turned)
