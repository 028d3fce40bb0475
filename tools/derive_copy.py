#!/usr/bin/env python3
"""Makes the plain types Copy again, as the older language took them: `#[derive(Drop)]` becomes `#[derive(Clone, Copy)]`. Run once, at the top."""
import glob
import re

# A table that lies in a buffer of its own and is only lent.
LENT = {"FrameTable"}

for f in sorted(glob.glob("crates/*/src/**/*.rt", recursive=True)):
    with open(f, encoding="utf-8") as it:
        t = it.read()
    new = re.sub(
        r"#\[derive\(Drop\)\](?=\n(?:\s*#\[[^\n]*\]\n)*\s*(?:pub )?(?:struct|enum) (\w+))",
        lambda m: m[0] if m[1] in LENT else "#[derive(Clone, Copy)]",
        t,
    )
    if new != t:
        with open(f, "w", encoding="utf-8") as it:
            it.write(new)
