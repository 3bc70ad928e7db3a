#!/usr/bin/env bash
# What the gate costs, crate by crate, in processor seconds.
#
#   bench/gate.sh                 runs `rt ci` and prints a line for each crate
#   bench/gate.sh COMMAND..       runs this command instead, as: bench/gate.sh rt ci pp_lex
#   bench/gate.sh --pid PID       looks on while a command that runs already goes on, to its end
#
# The processes of the prover are looked at five times a second, so a figure can be low by a few in a hundred. A process
# counts as `tests` where it proves a crate with its tests, as `edits` where it tries a must-fail edit or proves the
# crate that edits begin with, and else as `library`. `rt ci` keeps what it passed: figures from nothing want `rt ci --anew`.
cd "$(dirname "${BASH_SOURCE[0]}")/.." || exit 1
exec python3 - "$@" <<'PYTHON'
import os
import resource
import subprocess
import sys
import time
from collections import defaultdict

TICKS = os.sysconf('SC_CLK_TCK')
PAUSE = 0.2
KINDS = ('library', 'tests', 'edits')


def read(path):
    with open(path, 'rb') as file:
        return file.read()


def processes():
    """Of each process: its parent, when it began, and its processor seconds."""
    for name in os.listdir('/proc'):
        if name.isdigit():
            try:
                fields = read('/proc/%s/stat' % name).rsplit(b')', 1)[1].split()
            except OSError:
                continue
            yield int(name), int(fields[1]), fields[19], (int(fields[11]) + int(fields[12])) / TICKS


def label(process):
    """The crate that the process proves and what for, or None."""
    try:
        words = read('/proc/%d/cmdline' % process).decode(errors='replace').split('\0')
        folder = os.readlink('/proc/%d/cwd' % process)
    except OSError:
        return None
    if '--crate-name' not in words:
        return 'all else', 'library'
    crate = words[words.index('--crate-name') + 1]
    if any('/rt-edit' in word for word in words + [folder]):
        return crate, 'edits'
    return crate, 'tests' if '--test' in words else 'library'


def look(root, seconds, labels):
    """Notes what the descendants of a process have used so far."""
    found = {process: (parent, (process, begun), used) for process, parent, begun, used in processes()}
    for process, (parent, key, used) in found.items():
        above = process
        while above in found and above != root:
            above = found[above][0]
        if above == root:
            labels[key] = label(process) or labels.get(key)
            seconds[key] = used


def table(seconds, labels):
    """The sums, crate by crate and kind by kind."""
    sums = defaultdict(lambda: defaultdict(float))
    for key, used in seconds.items():
        crate, kind = labels[key] or ('all else', 'library')
        sums[crate][kind] += used
    print('| Crate | Library | Tests | Edits | All |\n|---|---|---|---|---|')
    for crate in sorted(sums):
        row = [sums[crate][kind] for kind in KINDS]
        print('| %s | %s |' % (crate, ' | '.join('%.0f' % used if used else '' for used in row + [sum(row)])))
    row = [sum(sums[crate][kind] for crate in sums) for kind in KINDS]
    print('| sum | %s |' % ' | '.join('%.0f' % used for used in row + [sum(row)]))


def main():
    words = sys.argv[1:] or ['rt', 'ci']
    seconds, labels, status = {}, {}, 0
    if words[0] == '--pid':
        root = int(words[1])
        while os.path.exists('/proc/%d' % root):
            look(root, seconds, labels)
            time.sleep(PAUSE)
    else:
        command = subprocess.Popen(words, stdin=subprocess.DEVNULL)
        while command.poll() is None:
            look(command.pid, seconds, labels)
            time.sleep(PAUSE)
        status = command.returncode
    table(seconds, labels)
    if words[0] != '--pid':
        used = resource.getrusage(resource.RUSAGE_CHILDREN)
        print('processor seconds of the command as the system counts them: %.0f' % (used.ru_utime + used.ru_stime))
    return status


if __name__ == '__main__':
    sys.exit(main())
PYTHON
