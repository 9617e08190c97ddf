"""The examples of the README's first steps and of the GUIDE's cookbook, rights, holders and long member names, each run."""

import doctest
import os
import pathlib
import re
import shutil
import subprocess
import sys
import tempfile
import unittest

import tezqulom
from tezqulom.library import library

ROOT = pathlib.Path(__file__).resolve().parents[2]
LICENCE = (ROOT / "crates" / "askvalue" / "data" / "table").read_bytes()
GUIDE = (ROOT / "docs" / "GUIDE.md").read_text(encoding="utf-8")
README = (ROOT / "README.md").read_text(encoding="utf-8")


def section(text, *titles):
    """The text of sections."""
    return "".join(part for part in re.split(r"^(?=## )", text, flags=re.MULTILINE) if part.split("\n")[0] in ["## " + title for title in titles])


def transcripts(text):
    """Commands, after `$` and further lines after `>`, with what they print."""
    found = []
    for line in text.splitlines():
        if line.startswith("    $ "):
            found.append([line[6:], ""])
        elif not line.startswith("    "):
            found.append(None)
        elif line.startswith("    > ") and found and found[-1] and not found[-1][1]:
            found[-1][0] += "\n" + line[6:]
        elif found and found[-1]:
            found[-1][1] += line[4:] + "\n"
    return [one for one in found if one]


class Examples(unittest.TestCase):
    """A folder with the cookbook's files."""

    def setUp(self):
        self.folder = pathlib.Path(tempfile.mkdtemp())
        self.addCleanup(shutil.rmtree, self.folder)
        self.environment = {**os.environ, "PATH": os.pathsep.join((str(ROOT / "bindings"), os.environ["PATH"])), "TEZQULOM_LIBRARY": library.file}

    def records(self, title="Cookbook"):
        """The records of a section."""
        rows = re.findall(r"^\| `(\w)` \| `([0-9A-F ]+)` \|", section(GUIDE, title), flags=re.MULTILINE)
        return {name: bytes.fromhex(octets) for name, octets in rows}

    def questions(self, title, table, names, least):
        """The questions of a section about records of these names."""
        records = self.records(title)
        self.assertEqual(sorted(records), sorted(names))
        rows = re.findall(r"^\| ([^|]+) \| `([a-z]+:.*)` \| (\w+) \| (\w+) \| (\w+) \|$", section(GUIDE, title), flags=re.MULTILINE)
        self.assertGreaterEqual(len(rows), least)
        for question, text, *truths in rows:
            self.assertEqual([tezqulom.ask(table, records[name], text).truth.name for name in names], truths, question)

    def interact(self, title, least):
        """The Python examples of a section, in the folder."""
        code = "\n".join(re.findall(r"```python\n(.*?)```", section(GUIDE, title), flags=re.DOTALL))
        here = os.getcwd()
        os.chdir(self.folder)
        self.addCleanup(os.chdir, here)
        test = doctest.DocTestParser().get_doctest(code, {}, title, None, 0)
        self.assertGreaterEqual(len(test.examples), least)
        self.assertEqual(doctest.DocTestRunner().run(test).failed, 0)

    def play(self, text, least):
        """Run transcripts, in one folder, one after another."""
        found = transcripts(text)
        self.assertGreaterEqual(len(found), least)
        for given, printed in found:
            done = subprocess.run(["sh", "-c", given], check=False, cwd=self.folder, env=self.environment, stdout=subprocess.PIPE,
                                  stderr=subprocess.STDOUT, timeout=60)
            self.assertEqual(done.stdout.decode(), printed, given)

    def fill(self, title="Cookbook"):
        for name, octets in {"licence.table": LICENCE, **self.records(title)}.items():
            (self.folder / name).write_bytes(octets)

    def test_first_steps(self):
        if shutil.which("sqlite3") is None:
            print("\n  the README's first steps SKIPPED, the command sqlite3 is not installed")
            self.skipTest("the command sqlite3 is not installed")
        self.play(section(README, "First steps"), 7)

    def test_cookbook(self):
        self.questions("Cookbook", LICENCE, "abc", 18)

    def test_transcripts(self):
        self.fill()
        self.play(section(GUIDE, "Cookbook", "Does my type fit?"), 5)

    def test_python(self):
        self.fill()
        self.interact("Cookbook", 12)

    def test_rights(self):
        """The table that the builder makes is that of the rows, and the answers are those of the questions."""
        title = "Rights as named bits"
        self.fill(title)
        self.play(section(GUIDE, title), 6)
        self.questions(title, self.rows(title, "rights.table"), "def", 7)
        self.interact(title, 9)

    def rows(self, title, name):
        """A table that the builder has made, which is that of the section's rows."""
        table = (self.folder / name).read_bytes()
        rows = re.findall(r"^\| \d \| (\d+) \| ([^|]+) \|", section(GUIDE, title), flags=re.MULTILINE)
        written = [re.sub("00 x ([0-9]+)", lambda zeros: "00" * int(zeros[1]), octets.replace("`", "")) for _, octets in rows]
        self.assertEqual(table.hex(), "".join(written).replace(" ", "").lower())
        self.assertEqual([int(place) for place, _ in rows], [len(bytes.fromhex("".join(written[:at]))) for at in range(len(rows))])
        return table

    def test_holders(self):
        """As the rights; and the holder that is taken apart is the record's."""
        title = "Holders as distinguished names"
        self.fill(title)
        self.play(section(GUIDE, title), 6)
        self.questions(title, self.rows(title, "holders.table"), "pqr", 16)
        apart = re.findall(r"^\| (\d+) \| (`[0-9A-F][^|]+) \|", section(GUIDE, title), flags=re.MULTILINE)
        octets = [bytes.fromhex(one.replace("`", "")) for _, one in apart]
        self.assertEqual([int(place) for place, _ in apart], [6 + len(b"".join(octets[:at])) for at in range(len(apart))])
        self.assertEqual(self.records(title)["p"][6:60], b"".join(octets))
        self.interact(title, 12)

    def test_long_names(self):
        """As the rights."""
        title = "Long member names"
        self.fill(title)
        self.play(section(GUIDE, title), 4)
        self.questions(title, self.rows(title, "concessions.table"), "uvw", 5)
        self.interact(title, 7)

    def test_bindings(self):
        code = re.search(r"```python\n(.*?)```", (ROOT / "docs" / "BINDINGS.md").read_text(encoding="utf-8"), flags=re.DOTALL).group(1)
        done = subprocess.run([sys.executable, "-B", "-c", code], check=True, cwd=ROOT, capture_output=True, text=True, env=self.environment)
        self.assertEqual(done.stdout.splitlines(), re.findall(r"# (.*)$", code, flags=re.MULTILINE))


if __name__ == "__main__":
    unittest.main()
