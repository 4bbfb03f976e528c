#!/usr/bin/env python3
"""costs NAME [COUNT]: which functions and proof files of a crate take the check's time.

Reads the times at which the modules of the last `rt check` were written. For the whole crate let it start from nothing, with one job:

    cd crates/NAME; rm -r out; rt check --jobs 1; ../../tools/costs.py NAME
"""
import collections
import os
import re
import sys

TOP = os.path.join(os.path.dirname(os.path.abspath(__file__)), '..')
PAUSE = 20  # seconds without a module: another run


def modules(folder):
    """The checked modules below a folder, in the order in which they were written: time in seconds, name."""
    found = []
    for place, _, names in os.walk(folder):
        found += [(os.stat(os.path.join(place, n)).st_mtime_ns / 1e9, n) for n in names if n.endswith('.oantt')]
    return sorted(found)


def owner(name):
    """The function or file that a module belongs to: `jobs.span` of `Rattle-trial-proofs.jobs.span.Tie.oantt`."""
    inner = re.sub(r'^Rattle-\w+-(?:proofs|specs)\.', '', name)[:-len('.oantt')]
    parts = [p for p in inner.split('.') if p and p != 'decls']
    lower = [i for i, p in enumerate(parts) if p[0].islower()]
    return '.'.join(parts[:lower[-1] + 1]) if lower else '.'.join(parts[:1])


def costs(folder):
    spent, last = collections.Counter(), None
    for time, name in modules(folder):
        if last is not None and time - last < PAUSE:
            spent[owner(name)] += time - last
        last = time
    return spent


def main():
    name, count = sys.argv[1], int(sys.argv[2]) if len(sys.argv) > 2 else 20
    spent = costs(os.path.join(TOP, 'crates', name, 'out', 'incremental'))
    print(f'{sum(spent.values()):7.2f} s in all')
    for what, seconds in spent.most_common(count):
        print(f'{seconds:7.2f} s {what}')


if __name__ == '__main__':
    main()
