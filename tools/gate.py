#!/usr/bin/env python3
"""Runs the gate, `rt ci`, and writes what each crate took into the table of docs/gate.md.

    python3 tools/gate.py [ARGUMENT OF rt ci ..]

It prints what `rt ci` prints, and ends with its status. Twice a second it reads from /proc the processor time of each process
of the prover and of those that it started. The prover's command line names the crate, and tells whether the crate is proved,
its tests, a must-fail edit, or the seed that the edits of a crate begin with. What a process takes after it was read last is
not counted.
The table is written where `rt ci` ends well; with `--anew` among the arguments it is that of a new clone.
"""
import os
import re
import subprocess
import sys
import time
from pathlib import Path

ROOT = Path(__file__).resolve().parent.parent
PAGE = ROOT / "docs" / "gate.md"
KINDS = ("proof", "tests", "seed", "edits")
TICKS = os.sysconf("SC_CLK_TCK")


def kind_of(words, folder):
    """What a process of the prover is for."""
    if "--test" in words:
        return "tests"
    kept = words[words.index("--incremental") + 1] if "--incremental" in words[:-1] else ""
    if "/rt-edits-" in kept:
        return "seed" if kept.endswith("/seed") else "edits"
    return "edits" if re.search(r"/rt-edit-\d+-", folder) else "proof"


def running(gate):
    """The prover's processes of this gate: for each its number and start, its crate, what it is for, and its seconds so far."""
    parents, own, named = {}, {}, {}
    for name in filter(str.isdigit, os.listdir("/proc")):
        try:
            fields = Path(f"/proc/{name}/stat").read_text(encoding="utf-8").rpartition(")")[2].split()
            words = Path(f"/proc/{name}/cmdline").read_bytes().decode(errors="replace").split("\0")
            parents[name], own[name] = fields[1], (fields[19], sum(map(int, fields[11:13])) / TICKS)
            if words[0].endswith("/rattle") and "--crate-name" in words:
                named[name] = words[words.index("--crate-name") + 1], kind_of(words, os.readlink(f"/proc/{name}/cwd"))
        except OSError:
            # it ended meanwhile
            continue
    for name, (start, seconds) in own.items():
        above = [name]
        while above[-1] in parents:
            above.append(parents[above[-1]])
        prover = next((it for it in above if it in named), None)
        if prover and str(gate) in above:
            yield (name, start), *named[prover], seconds


def sampled(arguments):
    """Runs the gate. Returns its status, its seconds, and the processor seconds by crate and kind."""
    begun, seen = time.time(), {}
    gate = subprocess.Popen(["rt", "ci", *arguments], cwd=ROOT)
    while gate.poll() is None:
        for process, crate, kind, seconds in running(gate.pid):
            seen[process] = crate, kind, seconds
        time.sleep(0.5)
    taken = {}
    for crate, kind, seconds in seen.values():
        taken[crate, kind] = taken.get((crate, kind), 0) + seconds
    return gate.returncode, time.time() - begun, taken


def table_of(taken):
    """The rows of the table, the crates in the order of crates.txt."""
    named = re.findall(r"^(\w+)[^#\n]*:", (ROOT / "crates.txt").read_text(encoding="utf-8"), re.M)
    rows, sums = [], dict.fromkeys(KINDS, 0)
    edits_of_all = 0
    for crate in named:
        edits = len([*(ROOT / "crates" / crate).glob("must-fail/*.edit")])
        minutes = {kind: taken.get((crate, kind), 0) / 60 for kind in KINDS}
        edits_of_all += edits
        sums = {kind: sums[kind] + minutes[kind] for kind in KINDS}
        shown = [f"{minutes[kind]:.1f}" if minutes[kind] else "" for kind in KINDS]
        rows.append([f"`{crate}`", *shown, str(edits or ""), f"{sum(minutes.values()):.1f}"])
    rows.append(["all", *[f"{sums[kind]:.1f}" for kind in KINDS], str(edits_of_all), f"{sum(sums.values()):.1f}"])
    head = ["| Crate | Proof | Tests | Seed | Edits | Number of edits | Sum |", "|---|---:|---:|---:|---:|---:|---:|"]
    return "\n".join([*head, *[f"| {' | '.join(row)} |" for row in rows]]), sum(sums.values())


def write(seconds, taken):
    """Puts the table, and the sentence above it, in the place of those that docs/gate.md has."""
    table, minutes = table_of(taken)
    told = f"The whole took {seconds / 60:.0f} minutes on {os.cpu_count()} cores, and {minutes:.0f} processor minutes.\n\n{table}\n"
    text = PAGE.read_text(encoding="utf-8")
    begin, end = "<!-- by tools/gate.py -->\n", "<!-- end -->\n"
    before, _, rest = text.partition(begin)
    PAGE.write_text(f"{before}{begin}{told}{end}{rest.partition(end)[2]}", encoding="utf-8")


def main():
    status, seconds, taken = sampled(sys.argv[1:])
    print(f"{seconds / 60:.1f} minutes, {sum(taken.values()) / 60:.1f} processor minutes")
    for (crate, kind), spent in sorted(taken.items()):
        print(f"{spent:8.1f} {kind:5} {crate}")
    if status == 0:
        write(seconds, taken)
    return status


if __name__ == "__main__":
    sys.exit(main())
