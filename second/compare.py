"""Compares this program's answers with the project's definitions, on drawn cases.

    python3 second/compare.py --seed N --cases M [--written] [--per-file K] [--keep]

The cases are written as computed examples into a copy of the repository in a temporary folder,
and `rt check` is run there in crates/demands. Cases that fail are found, taken out and printed.
"""

import argparse
import os
import pathlib
import re
import shlex
import shutil
import subprocess
import sys
import tempfile
from collections import Counter
from dataclasses import dataclass

import draw
import written

HERE = pathlib.Path(__file__).resolve().parent
CRATE = pathlib.Path("crates", "demands")
SPECS = CRATE / "specs"
HEAD = ["-- Drawn cases.",
        "use Rattle.std.specs.Prelude.{◌≡◌, refl, true, false, [], ◌∷◌}",
        "use Rattle.demands.specs.Shown."
        "{shown_table, shown_value, shown_part, shown_ask, shown_list, hex}"]
SHOWN = {"table": "shown_table", "value": "shown_value", "part": "shown_part", "ask": "shown_ask",
         "list": "shown_list"}
TRUTHS = {"FALSE": 0, "TRUE": 1, "UNDEFINED": 2}
PLACE = re.compile(r"(Drawn[0-9]+)\.antt[^0-9\n]{1,12}([0-9]+)")
ERROR = re.compile(PLACE.pattern + r"(?::[0-9]+)?: error")


def unfolding():
    """The extra `use` lines and the names for `unfolding`, from unfolding.txt if it is there."""
    path = HERE / "unfolding.txt"
    lines = path.read_text(encoding="utf-8").split("\n") if path.exists() else []
    lines = [line.strip() for line in lines if line.strip()]
    return ([line for line in lines if line.startswith("use ")],
            [line for line in lines if not line.startswith("use ")])


def shown_input(given):
    """One input as a term."""
    if isinstance(given, bool):
        return "true" if given else "false"
    return str(given) if isinstance(given, int) else '(hex "%s")' % given.hex().upper()


def shown_answer(answer):
    """The numbers that stand for an answer."""
    word = answer[0]
    if word == "refused":
        return [answer[1]]
    if word == "answer":
        return [0, TRUTHS[answer[1]], answer[2]]
    if word == "admitted":
        return [0, answer[1]]
    if word == "part":
        return [0, *answer[1]]
    if word == "listed":
        return [0, len(answer[1])] + [number for triple in answer[1] for number in triple]
    return [0]


def case_lines(name, case, names):
    """The declaration of one case as a list of lines: the one place that knows its form."""
    inputs = " ".join(shown_input(given) for given in case.inputs)
    numbers = "".join("%d ∷ " % number for number in shown_answer(case.answer)) + "[]"
    lines = ["%s : %s %s ≡ %s" % (name, SHOWN[case.entry], inputs, numbers)]
    if names:
        lines.append("unfolding " + " ".join(names))
    return lines + ["%s = refl" % name, ""]


def write_files(copy, lib, numbered, per_file):
    """Write the cases into the copy; a map from file name to (first line, last line, number)."""
    for old in (copy / SPECS).glob("Drawn*.antt"):
        old.unlink()
    uses, names = unfolding()
    spans = {}
    for at in range(0, max(len(numbered), 1), per_file):
        title = "Drawn%d" % (at // per_file + 1)
        lines, spans[title] = HEAD + uses + [""], []
        for number, case in numbered[at:at + per_file]:
            first = len(lines) + 1
            lines += case_lines("case%d" % number, case, names)
            spans[title].append((first, len(lines), number))
        (copy / SPECS / (title + ".antt")).write_text("\n".join(lines), encoding="utf-8")
    added = "".join("pub mod %s\n" % title for title in spans)
    (copy / SPECS / "Lib.antt").write_text(lib.rstrip("\n") + "\n" + added, encoding="utf-8")
    return spans


@dataclass
class Checker:
    """Runs the check in the copy and finds the cases that fail."""

    copy: pathlib.Path
    lib: str
    per_file: int
    command: list
    limit: float
    runs: int = 0

    def run(self, numbered):
        """Whether the check passes, its output, and where each case stands in the files."""
        spans = write_files(self.copy, self.lib, numbered, self.per_file)
        self.runs += 1
        try:
            done = subprocess.run(self.command, cwd=self.copy / CRATE, capture_output=True, text=True,
                                  errors="replace", timeout=self.limit or None, check=False,
                                  env={**os.environ, "RT_CUT": "0"})
        except subprocess.TimeoutExpired:
            return False, "no answer in %g seconds" % self.limit, spans
        return done.returncode == 0, done.stdout + done.stderr, spans

    def failing(self, numbered):
        """A dict from the number of each failing case to the checker's message."""
        found = {}
        while numbered:
            good, output, spans = self.run(numbered)
            if good:
                break
            placed = located(output, spans)
            if not placed:
                if not found and self.runs == 1:
                    self.need_working_ground()
                return {**found, **self.by_halves(numbered, output)}
            found.update(placed)
            print("  failing so far: %d (run %d)" % (len(found), self.runs), flush=True)
            numbered = [one for one in numbered if one[0] not in placed]
        return found

    def by_halves(self, numbered, output):
        """The failing ones among cases whose check fails without saying where."""
        if len(numbered) == 1:
            return {numbered[0][0]: output}
        found = {}
        middle = len(numbered) // 2
        for half in (numbered[:middle], numbered[middle:]):
            good, output, spans = self.run(half)
            if not good:
                placed = located(output, spans)
                found.update(placed)
                rest = [one for one in half if one[0] not in placed]
                if placed:
                    found.update(self.failing(rest))
                else:
                    found.update(self.by_halves(half, output))
        return found

    def need_working_ground(self):
        """Stop if the check fails without any case."""
        good, output, _ = self.run([])
        if not good:
            print(output[-6000:])
            sys.exit("the check fails without any case: nothing was compared")


def located(output, spans):
    """The cases whose lines the output names in an error, with what it says there."""
    matches = [*ERROR.finditer(output)] or [*PLACE.finditer(output)]
    found = {}
    for match, following in zip(matches, matches[1:] + [None]):
        line = int(match.group(2))
        for first, last, number in spans.get(match.group(1), []):
            if first <= line <= last and number not in found:
                start = output.rfind("\n", 0, match.start()) + 1
                end = output.rfind("\n", 0, following.start()) if following else len(output)
                found[number] = output[start:max(start, end)][:3000].strip()
    return found


def describe(number, case):
    """A case with its inputs in hex and text."""
    lines = ["case%d: %s" % (number, case.entry)]
    names = {"table": ["table"], "value": ["table", "value"], "part": ["value", "place", "length"],
             "ask": ["table", "value", "filter", "budget"],
             "list": ["table", "value", "given", "reference", "defaults", "room"]}[case.entry]
    for name, given in zip(names, case.inputs):
        if isinstance(given, bytes):
            text = "  = %r" % given.decode("utf-8", "replace") if name in ("filter", "reference") else ""
            lines.append("  %-9s %s%s" % (name, given.hex().upper() or "(empty)", text))
        else:
            lines.append("  %-9s %s" % (name, given))
    lines.append("  expected  %s  as numbers %s" % (case.answer, shown_answer(case.answer)))
    return "\n".join(lines)


def summary(cases, failing):
    """A table of cases by entry and answer."""
    counts, bad = Counter(), Counter()
    for number, case in cases:
        key = case.entry, case.kind_of_answer()
        counts[key] += 1
        bad[key] += number in failing
    lines = ["%-6s %-10s %6s %6s" % ("entry", "answer", "agree", "not")]
    lines += ["%-6s %-10s %6d %6d" % (*key, counts[key] - bad[key], bad[key])
              for key in sorted(counts)]
    return "\n".join(lines)


def main():
    """Draw, copy, check, report."""
    parser = argparse.ArgumentParser(description=__doc__.split("\n", maxsplit=1)[0])
    parser.add_argument("--seed", type=int, default=1)
    parser.add_argument("--cases", type=int, default=200)
    parser.add_argument("--per-file", type=int, default=40)
    parser.add_argument("--keep", action="store_true", help="keep the copy and say where it is")
    parser.add_argument("--written", action="store_true", help="also the cases that the tests ask")
    parser.add_argument("--longest", type=int, default=500, help="octets of a written case")
    parser.add_argument("--only", choices=sorted(SHOWN), help="cases of this entry only")
    parser.add_argument("--large", action="store_true", help="draw large inputs")
    parser.add_argument("--limit", type=float, default=0, help="seconds for one run, 0 for none")
    parser.add_argument("--command", default="rt check")
    given = parser.parse_args()
    drawer = draw.CaseDrawer(given.seed, draw.LARGER if given.large else draw.SMALL, longer=True)
    cases = written.cases(given.longest) if given.written else []
    cases = [case for case in cases if given.only in (None, case.entry)]
    cases += [drawer.of(given.only) if given.only else drawer.case() for _ in range(given.cases)]
    cases = [*enumerate(cases, 1)]
    folder = pathlib.Path(tempfile.mkdtemp(prefix="compare-"))
    copy = folder / "copy"
    try:
        shutil.copytree(HERE.parent, copy, symlinks=True, ignore=lambda path, _: (
            {"target", ".git"} if pathlib.Path(path) == HERE.parent else
            {"out"} if pathlib.Path(path).parent == HERE.parent / "crates" else set()))
        lib = (copy / SPECS / "Lib.antt").read_text(encoding="utf-8")
        checker = Checker(copy, lib, max(1, given.per_file), shlex.split(given.command), given.limit)
        failing = checker.failing(cases)
        if given.keep:
            write_files(copy, lib, cases, checker.per_file)
    finally:
        if given.keep:
            print("kept:", copy)
        else:
            shutil.rmtree(folder, ignore_errors=True)
    for number, case in cases:
        if number in failing:
            print(describe(number, case))
            print("  the checker says:")
            print("    " + failing[number][-6000:].replace("\n", "\n    "))
    print(summary(cases, failing))
    print("%d agree, %d disagree, %d runs of the check"
          % (len(cases) - len(failing), len(failing), checker.runs))
    return 1 if failing else 0


if __name__ == "__main__":
    sys.exit(main())
