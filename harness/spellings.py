#!/usr/bin/env python3
"""spellings.py HARNESS SHEETS FILE: counts, by callgrind's calls, how often the library spells a number in one call, on each of the SHEETS sheets with many
made names. spellings.sh runs it.

A number is spelled where digits_of is called. made_size measures a made name that goes into the list and put_made writes it; is_taken is called for each
candidate, and `Names::has` for each input that is looked up, once to measure its record and once to write it. Exits 1 if a candidate is spelled more than once, if a name
is measured more often than it is written, or if anything else spells a number. FILE is where callgrind writes.
"""
import collections
import re
import subprocess
import sys

WRITTEN = ["made_size", "put_made"]


def calls(out):
    """How often each function calls each other one, by their last names."""
    found = collections.Counter()
    caller = callee = None
    for line in open(out):
        if m := re.match(r"c?fn=(.*)", line):
            name = re.split(r"[:.$ ]+", m.group(1).split("'")[0].strip())[-1]
            if line.startswith("fn="):
                caller = name
            else:
                callee = name
        elif m := re.match(r"calls=(\d+)", line):
            found[caller, callee] += int(m.group(1))
    return found


def main(harness, sheets, out):
    bad = False
    print("| sheet | candidates | inputs looked up | spelled: measuring | writing | for a candidate | else |")
    print("|---|---|---|---|---|---|---|")
    for n in range(int(sheets)):
        run = ["valgrind", "-q", "--tool=callgrind", "--toggle-collect=zatongae_convert", "--compress-strings=no", "--callgrind-out-file=" + out]
        sheet = subprocess.check_output(run + [harness, "names", str(n)], text=True).strip()
        found = calls(out)
        called = lambda name: sum(c for (_, callee), c in found.items() if callee == name)
        spelled = {caller: c for (caller, callee), c in found.items() if callee == "digits_of"}
        written = [spelled.pop(name, 0) for name in WRITTEN]
        searched = spelled.pop("is_taken", 0)
        candidates = called("is_taken")
        others = sum(spelled.values())
        print("|", " | ".join(map(str, [sheet, candidates, called("has") // 2, *written, searched, others])), "|")
        if not sum(written):
            sys.exit("no call of digits_of was seen: the names of the library's functions are not what is looked for")
        bad |= searched > candidates or written[0] != written[1] or others > 0
    sys.exit(1 if bad else 0)


main(*sys.argv[1:])
