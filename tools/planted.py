# Writes docs/PLANTED.md: each planted bug by crate and function, and the fact that refused it.
#
# usage: python3 tools/planted.py LOG... > docs/PLANTED.md
# LOG is what `rt ci` or `rt must-fail` printed; where an edit stands in several, the last counts.

import glob
import os
import re
import sys

REFUSED = re.compile(r"^rt: must-fail ([^/]+)/([^ ]+)\.edit: refused, as it must be: (.*)$")
FUNCTION = re.compile(r"^\s*(?:pub(?:\([a-z]+\))? )?(?:const )?fn (\w+)")
BLOCK = re.compile(r"^(?:pub )?(?:impl|trait)\b(.*)$")
GOAL = re.compile(r"`([A-Za-z_0-9.◌-]+)`")
SOUGHT = re.compile(r"`search`: no proof of `([^`]+)`")


def told_in(logs):
    """For each edit, as (crate, label), what refused it."""
    told = {}
    for name in logs:
        with open(name, encoding="utf-8", errors="replace") as log:
            for line in log:
                found = REFUSED.match(line)
                if found:
                    told[(found[1], found[2])] = found[3]
    return told


def edit_in(path):
    """The file that an edit changes, and its pairs of texts."""
    file, pairs, old = None, [], None
    with open(path, encoding="utf-8") as edit:
        for line in edit:
            line = line.rstrip("\n")
            if line.startswith("file: "):
                file = line[6:]
            elif line.startswith("old: "):
                old = line[5:]
            elif line.startswith("new:"):
                pairs.append((old, line[5:]))
    return file, pairs


def owner(block):
    """The type, or the trait and the type, that a block of functions belongs to."""
    words = re.sub(r"<[^<>]*>", "", re.sub(r"<[^<>]*>", "", block)).split("{")[0].split()
    words = [word for word in words if word not in ("where",)]
    return " ".join(words).strip()


def function_at(lines, row):
    """The function around a line of a source file, with the block that it stands in."""
    name, block = "", ""
    for at in range(row, -1, -1):
        found = FUNCTION.match(lines[at])
        if found and not name:
            name = found[1]
        found = BLOCK.match(lines[at])
        if found:
            block = owner(found[1])
            break
    if name and block and re.match(r"^\s", next(line for line in lines[row::-1] if FUNCTION.match(line))):
        return "{} of {}".format(name, block)
    return name or block


def place_of(root, crate, file, old):
    with open(os.path.join(root, "crates", crate, file), encoding="utf-8") as source:
        text = source.read()
    # The blanks before a text tell it from the same words elsewhere.
    start = text.index(old) + len(old) - len(old.lstrip())
    row = text[:start].count("\n")
    return function_at(text.split("\n"), row)


def fact(reason):
    """What could not be proved, in words, from what the prover printed."""
    goals = [goal for goal in GOAL.findall(reason) if "-" in goal or goal in ("returns",)]
    goal = goals[0] if goals else ""
    if goal.startswith("returns") and "-clause-" in goal:
        return "clause `{}`".format(goal.split("-clause-")[1])
    if goal.startswith("returns"):
        return "its `ensures`"
    if goal.startswith("invariant_of"):
        return "the ghost fields of what it makes"
    if "-requires" in goal or "asks" in goal:
        return "what a call asks for (`{}`)".format(goal.split("-requires")[0])
    if goal.endswith("-init"):
        return "the loop's invariant at first"
    if "-preserved" in goal:
        return "the loop's invariant after a pass"
    if goal.endswith("-smaller"):
        return "that the loop ends"
    sought = SOUGHT.search(reason)
    if sought:
        return "that {}".format(cell(sought[1]))
    if "does not go below 0" in reason:
        return "that a subtraction does not go below 0"
    return "`{}`".format(goal) if goal else "that control never comes there"


def cell(text):
    return "`" + text.strip().replace("|", "\\|").replace("`", "'") + "`"


def rows(root, told):
    for path in sorted(glob.glob(os.path.join(root, "crates", "*", "must-fail", "*.edit"))):
        crate = path.split(os.sep)[-3]
        label = os.path.basename(path)[:-5]
        file, pairs = edit_in(path)
        reason = told.get((crate, label))
        if reason is None:
            sys.exit("planted: no log tells of {}/{}".format(crate, label))
        yield crate, place_of(root, crate, file, pairs[0][0]), label, pairs, fact(reason)


def main(logs):
    root = os.path.join(os.path.dirname(os.path.abspath(__file__)), "..")
    told = told_in(logs)
    print("# Planted bugs")
    print()
    print("Each row is one wrong text that was put in the place of the right one, in the function named, and the fact that the prover then missed first. "
          "`.ci/run` tries them all anew where something changed; this page is written by `tools/planted.py` from what it printed.")
    crate = None
    for row in sorted(rows(root, told)):
        if row[0] != crate:
            crate = row[0]
            print("\n## {}\n".format(crate))
            print("| function | planted bug | right | wrong | missed first |")
            print("| --- | --- | --- | --- | --- |")
        right = "; ".join(cell(old) for old, _ in row[3])
        wrong = "; ".join(cell(new) if new.strip() else "nothing" for _, new in row[3])
        print("| {} | {} | {} | {} | {} |".format(row[1] or "-", row[2], right, wrong, row[4]))


if __name__ == "__main__":
    main(sys.argv[1:])
