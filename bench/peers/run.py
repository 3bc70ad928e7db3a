#!/usr/bin/env python3
"""Runs the texts of texts.py in the program and in the Prolog systems that it finds (swipl, gplc), checks that all give
the same answer, and prints a table: medians of processor time of one run with the start of the process, their ratios, and
memory at its highest. Installs nothing. The status is 1 where answers differ."""
import argparse
import itertools
import os
import pathlib
import resource
import shutil
import statistics
import subprocess
import sys
import tempfile

import texts

HERE = pathlib.Path(__file__).resolve().parent
ROOT = HERE.parent.parent
DOCUMENT = ROOT / "docs" / "PERFORMANCE.md"
BEGIN, END = "<!-- bench/peers/run.py writes from here -->", "<!-- to here -->"
AREAS = {"GLOBALSZ": "1000000", "TRAILSZ": "200000", "LOCALSZ": "200000"}
TIME = shutil.which("time")


class Run:
    """One run: its output, processor seconds and megabytes, or None for seconds where it was cut off."""

    def __init__(self, words, given, limit):
        with tempfile.TemporaryDirectory() as room:
            peak = f"{room}/peak"
            # GNU time starts the process from a small one: a child's highest memory includes its parent's at the start.
            words = [TIME, "-q", "-f", "%M", "-o", peak, *words] if TIME else words
            cut = lambda: resource.setrlimit(resource.RLIMIT_CPU, (limit, limit + 1))
            with open(given) as source, open(f"{room}/out", "wb") as sink:
                child = subprocess.Popen(words, stdin=source, stdout=sink, stderr=subprocess.DEVNULL, env={**os.environ, **AREAS}, preexec_fn=cut)
                _, status, used = os.wait4(child.pid, 0)
                child.returncode = os.waitstatus_to_exitcode(status)
            self.output = pathlib.Path(f"{room}/out").read_bytes()
            self.seconds = used.ru_utime + used.ru_stime
            kilobytes = int(pathlib.Path(peak).read_text().split()[-1]) if TIME else used.ru_maxrss
            self.memory = kilobytes / 1024
            if self.seconds > limit - 0.5 or not self.output:
                self.seconds = None


class Bench:
    def __init__(self, options, room):
        self.options, self.room = options, room
        self.answers, self.differ = {}, []
        self.slow, self.medians = set(), {}
        self.swipl, self.gplc = shutil.which("swipl"), shutil.which("gplc")

    def repeated(self, words, given, first=None):
        """The median of some runs: one where it takes long."""
        first = first or Run(words, given, self.options.seconds)
        if first.seconds is None:
            return None
        count = self.options.runs if first.seconds < 2 else 1
        runs = [first, *(Run(words, given, self.options.seconds) for _ in range(count - 1))]
        if any(it.seconds is None for it in runs):
            return None
        return statistics.median(it.seconds for it in runs), max(it.memory for it in runs)

    def better(self, system, name, ways):
        """The fastest of some ways, with its median. A way that was cut off or far slower isn't tried at a larger size."""
        firsts = {}
        for way, words in ways.items():
            if (system, name, way) not in self.slow:
                run = Run(words, os.devnull, self.options.seconds)
                if run.seconds is None:
                    self.slow.add((system, name, way))
                    continue
                firsts[way] = run
                self.answers[f"{system} by {way}"] = run.output
        if not firsts:
            return None
        best = min(firsts, key=lambda way: firsts[way].seconds)
        self.slow |= {(system, name, way) for way, run in firsts.items() if run.seconds > 1 + 3 * firsts[best].seconds}
        found = self.repeated(ways[best], os.devnull, firsts[best])
        return found and (*found, best)

    def swi(self, clauses, way, occurs=False):
        flag = "set_prolog_flag(occurs_check, true), " if occurs else ""
        return [self.swipl, "-q", "--no-signals", "-f", HERE / "propagate.pl", "-g", f"{flag}consult('{clauses}'), run({way}, '{self.room}/query')", "-t", "halt"]

    def native(self, clauses):
        """The clauses and propagate.pl compiled by GNU Prolog, where that ends within the limit; the compilation is not timed."""
        made = f"{self.room}/native"
        main = f"{self.room}/main.pl"
        pathlib.Path(main).write_text(":- initialization(main).\nmain :- argument_list([Way, File]), run(Way, File).\n")
        words = [self.gplc, "--no-top-level", "-o", made, HERE / "propagate.pl", clauses, main]
        try:
            ran = subprocess.run(words, stdout=subprocess.DEVNULL, stderr=subprocess.DEVNULL, timeout=self.options.seconds, env={**os.environ, **AREAS})
        except subprocess.TimeoutExpired:
            return None
        return None if ran.returncode else made

    def compare(self, name, size):
        """Notes whose answer isn't that of the first."""
        wanted = next(iter(self.answers.values()), None)
        self.differ += [f"{name} {size}: {who}" for who, answer in self.answers.items() if answer != wanted]

    def program(self, name, size):
        """The program's median and memory."""
        given = f"{self.room}/text"
        pathlib.Path(given).write_text(texts.text(name, size))
        words = [self.options.program, "alone", "--depth", "10000", "--turns", "1000000"]
        first = Run(words, given, self.options.seconds)
        self.answers = {} if first.seconds is None else {"propia": first.output}
        own = self.repeated(words, given, first)
        self.medians[name, size] = own and own[0]
        return own

    def peers(self, name, size):
        """The medians, memory and ways of SWI-Prolog, of the same with its occurs check, and of GNU Prolog."""
        clauses = f"{self.room}/clauses.pl"
        pathlib.Path(clauses).write_text(texts.prolog(name, size))
        pathlib.Path(f"{self.room}/query").write_text(texts.query(name, size))
        ways = texts.ways(name, size)
        swi = occurs = gnu = None
        if self.swipl:
            swi = self.better("swipl", name, {way: self.swi(clauses, way) for way in ways})
        if swi:
            occurs = self.better("swipl with occurs check", name, {swi[2]: self.swi(clauses, swi[2], True)})
        native = self.gplc and ("gplc", name) not in self.slow and self.native(clauses)
        if native:
            gnu = self.better("gplc", name, {way: [native, way, f"{self.room}/query"] for way in ways})
        elif self.gplc:
            self.slow.add(("gplc", name))
        return swi, occurs, gnu

    def row(self, name, size):
        own = self.program(name, size)
        swi, occurs, gnu = self.peers(name, size)
        self.compare(name, size)
        bar = texts.TEXTS[name][2]
        best = min((it[0] for it in (swi, gnu) if it), default=None)
        ratio = lambda other: f"{own[0] / other:.2f}" if own and other else ""
        time = lambda it: f"{1000 * it[0]:.0f}" if it else ""
        with_way = lambda it: f"{time(it)} {it[2]}" if it else ""
        memory = lambda it: f"{it[1]:.0f}" if it else ""
        holds = "" if not swi else "yes" if own and own[0] <= bar * swi[0] and own[1] <= swi[1] else "no"
        own_time = time(own) or f"> {1000 * self.options.seconds}"
        cells = [name, size, own_time, with_way(swi), ratio(swi and swi[0]), bar, holds, time(occurs)]
        cells += [with_way(gnu), ratio(best), memory(own), memory(swi), memory(gnu)]
        return "| " + " | ".join(map(str, cells)) + " |"

    def growth(self, name):
        """What one more of the text's units costs, between the first sizes and between the last ones."""
        word, count = texts.UNITS[name]
        steps = []
        for low, high in itertools.pairwise(texts.TEXTS[name][1]):
            before, after = self.medians.get((name, low)), self.medians.get((name, high))
            known = before is not None and after is not None
            steps.append(f"{1e9 * (after - before) / (count(high) - count(low)):.0f}" if known else "")
        return f"| {name} | {word} | {' | '.join(steps)} |"

    def machine(self):
        said = subprocess.run(["lscpu"], capture_output=True, text=True).stdout if shutil.which("lscpu") else ""
        facts = dict(line.split(":", 1) for line in said.splitlines() if ":" in line)
        line = f"{facts.get('Model name', 'processor not known').strip()}, {os.cpu_count()} processors"
        version = lambda it: subprocess.run([it, "--version"], stdout=subprocess.PIPE, stderr=subprocess.STDOUT, text=True).stdout
        peers = [version(it).splitlines()[0] for it in (self.swipl, self.gplc) if it]
        return f"{line}; {'; '.join(peers) or 'no Prolog system found'}; medians of {self.options.runs} runs, of one where it takes over two seconds."


HEAD = """| Text | Size | `propia` ms | SWI-Prolog ms, way | Ratio | Bar | Holds | with occurs check ms | GNU Prolog ms, way | Ratio to the best | `propia` MB | SWI-Prolog MB | GNU Prolog MB |
|---|---|---|---|---|---|---|---|---|---|---|---|---|"""


COSTS = """| Text | One more | ns, from the first size to the second | ns, from the second to the third |
|---|---|---|---|"""


def read_options():
    parser = argparse.ArgumentParser(description=__doc__)
    parser.add_argument("texts", nargs="*", metavar="TEXT", help=f"of {', '.join(texts.TEXTS)}; all without one")
    parser.add_argument("--program", default=str(ROOT / "crates" / "propia" / "out" / "propia"))
    parser.add_argument("--runs", type=int, default=3)
    parser.add_argument("--seconds", type=int, default=15, help="of processor time that one run may take")
    parser.add_argument("--sizes", type=int, default=3, help="how many sizes of each text, from the smallest")
    parser.add_argument("--write", action="store_true", help="also put the table into docs/PERFORMANCE.md")
    options = parser.parse_args()
    if unknown := [it for it in options.texts if it not in texts.TEXTS]:
        parser.error(f"no such text: {', '.join(unknown)}")
    if not os.access(options.program, os.X_OK):
        parser.error(f"{options.program} is not built: `rt ci` leaves it")
    return options


def main():
    options = read_options()
    with tempfile.TemporaryDirectory() as room:
        bench = Bench(options, room)
        lines = [bench.machine(), "", *HEAD.splitlines()]
        print("\n".join(lines), flush=True)
        for name in options.texts or texts.TEXTS:
            for size in texts.TEXTS[name][1][: options.sizes]:
                lines.append(bench.row(name, size))
                print(lines[-1], flush=True)
        growths = [bench.growth(name) for name in options.texts or texts.TEXTS if name in texts.UNITS]
        lines += ["", *COSTS.splitlines(), *growths]
        print("\n".join(["", COSTS, *growths]))
        for it in bench.differ:
            print(f"ANSWERS DIFFER: {it}", file=sys.stderr)
    if options.write:
        whole = DOCUMENT.read_text()
        before, after = whole[: whole.index(BEGIN) + len(BEGIN)], whole[whole.index(END) :]
        DOCUMENT.write_text("\n".join([before, *lines, after]))
    sys.exit(1 if bench.differ else 0)


main()
