#!/usr/bin/env python3
"""In a copy of the repository: an edit that plants several faults becomes an edit for each fault; all others go.

    git clone . COPY && python3 tools/single_faults.py COPY && (cd COPY && rt must-fail)

An edit of several faults is refused as soon as one of them is. So this shows of each by itself whether the check refuses it.
A fault whose text stands more than once comes with the faults in front of it that change the other places.
"""
import glob
import os
import sys


def faults(path):
    file, found = None, []
    with open(path, encoding="utf-8") as it:
        for line in it.read().splitlines():
            if line.startswith("file: "):
                file = line[6:]
            elif line.startswith("old: "):
                old = line[5:]
            elif line.startswith("new: "):
                found.append((file, old, line[5:]))
    return found


def with_others(folder, found, number):
    """The fault, behind those that make its text stand once."""
    file, old, _ = found[number]
    with open(f"{folder}/{file}", encoding="utf-8") as it:
        if it.read().count(old) == 1:
            return [found[number]]
    return [one for one in found[:number] if one[0] == file and old in one[1]] + [found[number]]


def main(copy):
    if os.path.realpath(copy) == os.path.realpath(os.path.dirname(os.path.dirname(os.path.abspath(__file__)))):
        raise SystemExit("give the folder of a copy: edits are taken apart in place")
    for path in sorted(glob.glob(f"{copy}/crates/*/must-fail/*.edit")):
        folder = os.path.dirname(os.path.dirname(path))
        found = faults(path)
        os.remove(path)
        for number in range(len(found) if len(found) > 1 else 0):
            parts = with_others(folder, found, number)
            with open(f"{path[:-5]}_{number + 1:02}.edit", "w", encoding="utf-8") as it:
                it.write(f"file: {parts[0][0]}\n")
                it.writelines(f"old: {old}\nnew: {new}\n" for _, old, new in parts)


if __name__ == "__main__":
    if len(sys.argv) != 2:
        raise SystemExit(__doc__)
    main(sys.argv[1])
