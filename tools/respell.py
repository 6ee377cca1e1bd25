#!/usr/bin/env python3
"""Brings the repository's own names in specs/, proofs/ and the ghost text of src/ to snake case.

usage: python3 tools/respell.py     at the top of the repository, once, right after /opt/rattle/port/port.py

A word of the repository's own that is spelled firstNo or leaf-kept becomes first_no or leaf_kept. Types, modules and
facts keep their capitals. Names that the check makes (what follows `c.`, `w.`, `l.` or `goal.`) and names of the
library keep their spelling. A lemma that would get the name of its definition ends in _lem.
"""
import os
import re

NAME = r"[A-Za-z_ℕℤ][\w'ℕℤ]*(?:-[\w'ℕℤ]+)*"
NAMES = r"(?:%s)(?:\s+(?:%s))*" % (NAME, NAME)
# Lemmas whose plain spelling is that of what they speak of.
LEMMAS = {
    "enough-seen": "enough_seen_lem",
    "first-no": "first_no_lem",
    "in-first": "in_first_lem",
    "in-second": "in_second_lem",
    "landed-seen": "landed_seen_lem",
    "level-is": "level_is_lem",
    "level-over": "level_over_lem",
    "open-seen": "open_seen_lem",
    "outflow-is": "outflow_is_lem",
    "refusal-in": "refusal_in_lem",
    "sides-seen": "sides_seen_lem",
    "volume-fits": "volume_fits_lem",
    "water-at": "water_at_lem",
    # Turned by port.py already.
    "end_seen": "end_seen_lem",
    "at_top": "at_top_lem",
}
# What stands for it elsewhere under the same letters: a field, a variable or a function of src/.
KEPT_IN = {"end_seen": "site", "at_top": "site"}


def texts(kinds):
    for top, folders, names in os.walk("crates"):
        folders[:] = sorted(f for f in folders if f not in ("out", "data"))
        for name in sorted(names):
            if name.endswith(kinds):
                yield os.path.join(top, name)


def read(path):
    with open(path, encoding="utf-8") as file:
        return file.read()


def own_names():
    """The names with a dash that the repository's own files declare or bind."""
    found = set()
    for path in texts((".antt",)):
        text = re.sub(r"(?m)--.*$", "", read(path))
        heads = r"(?m)^\s*(?:(?:pub|abbrev|unfoldable|ruleset)\s+)*(%s)\s*:(?!=)\s*(.*)$" % NAMES
        for match in re.finditer(heads, text):
            if not match.group(2).startswith("goal."):
                found.update(match.group(1).split())
        for pattern in (r"[({,;\[]\s*(%s)\s*[:=](?!=)" % NAMES, r"\blet\s+(%s)" % NAME, r"λ\s+(%s)\s*\." % NAMES):
            for match in re.finditer(pattern, text):
                found.update(match.group(1).split())
    return {name for name in found if "-" in name}


def is_camel(word):
    return re.match(r"[a-z][\w]*[A-Z]", word)


def snake(name):
    parts = [re.sub(r"[A-Z]", lambda m: "_" + m.group(0).lower(), p) if is_camel(p) else p for p in name.split("-")]
    return parts


def respelled(name, own, crate):
    if name in LEMMAS and KEPT_IN.get(name, crate) == crate:
        return LEMMAS[name]
    return ("_" if name in own else "-").join(snake(name))


def turn(text, own, crate):
    def one(match):
        # A name that the check makes follows the record of what is known.
        if re.search(r"(?:^|[^\w.])(?:c|w|l|goal)(?:\.[\w'-]+)*\.$", text[max(0, match.start() - 200) : match.start()]):
            return "-".join(snake(match.group(0)))
        return respelled(match.group(0), own, crate)

    return re.sub(NAME, one, text)


def main():
    own = own_names()
    for path in texts((".antt",)):
        text = read(path)
        # A goal's answer keeps the goal's name.
        goals = set(re.findall(r"(?m)^\s*(?:abbrev\s+)?(?:pub\s+)?(%s)\s*:\s*goal\." % NAME, text))
        new = turn(text, own - goals, path.split(os.sep)[1])
        if new != text:
            with open(path, "w", encoding="utf-8") as file:
                file.write(new)
    for path in texts((".rt",)):
        text = read(path)
        lines = text.split("\n")
        ghost = False
        for k, line in enumerate(lines):
            begins = re.match(r"\s*(?:pub(?:\([a-z]+\))? )?(ghost|requires|ensures)\b", line)
            code = line.split("//")[0]
            if begins or ghost:
                lines[k] = turn(line, own, path.split(os.sep)[1])
                depth = code.count("{") - code.count("}")
                ghost = depth > 0 if begins else ghost and not code.rstrip().endswith(("}", "};"))
        new = "\n".join(lines)
        if new != text:
            with open(path, "w", encoding="utf-8") as file:
                file.write(new)


if __name__ == "__main__":
    main()
