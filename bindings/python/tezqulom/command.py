"""The command `tezqulom`: python -m tezqulom."""

import argparse
import json
import os
import runpy
import sys
import traceback
from typing import Any, Callable, Dict, Iterable, List, NoReturn, Optional

from . import billrun, builder, clauses, filters, records
from .engine import MOST_TESTS, NotQuoted, Refusal, Refused, Truth, ask, asker, check_table, check_value, counted, escaped, quoted
from .inputs import NO_INPUT, USAGE, WRITE_ERROR, Input, Inputs, Stop
from .rows import Table
from .values import Plain, Time, gser, printable
from .version import VERSION

DONE, REFUSED = 0, 3
MISTAKE, INTERRUPTED = 70, 130
STATUS = {Truth.TRUE: 0, Truth.FALSE: 1, Truth.UNDEFINED: 2}
UNDEFINED_FILE, REFUSED_FILE = "tezqulom.undefined", "tezqulom.refused"
EPILOGUE = """TABLE and RECORD are files in DER, hexadecimal digits or PEM; FILTER is a filter's text (it starts with item:, and:, or: or not:) or a
file of it; `-` is standard input; an argument that starts with a hyphen stands after `--`. Exit status: 0 TRUE or done, 1 FALSE, 2 Undefined,
3 refused, 64 usage, 66 no file, 74 write error."""


class Parser(argparse.ArgumentParser):
    """Ends by the command's own status where the arguments are wrong."""

    def error(self, message: str) -> NoReturn:
        raise Stop(USAGE, "%s\n%s" % (message, self.format_usage().rstrip()))

    def _print_message(self, message: str, file: Any = None) -> None:
        """A write error is not passed over."""
        (file or sys.stdout).write(message)


def parser() -> Parser:
    """The arguments."""
    top = Parser(prog="tezqulom", description="Asks component filters (RFC 3687) about DER records.", epilog=EPILOGUE)
    top.add_argument("--version", action="version", version="tezqulom " + VERSION)
    commands = top.add_subparsers(metavar="COMMAND", required=True)

    def command(function: Callable[..., int], text: str, *names: str) -> argparse.ArgumentParser:
        one = commands.add_parser(function.__name__, help=text, description=text, epilog=EPILOGUE)
        one.set_defaults(function=function)
        one.add_argument("--json", action="store_true", help="answer in JSON")
        for name in names:
            one.add_argument(name.strip("?").lower(), metavar=name.strip("?"), nargs="?" if name.endswith("?") else None)
        return one

    command(show, "the record as a tree with names, places, values and defaults", "TABLE", "RECORD", "REFERENCE?")
    command(ask_, "the truth of a filter about a record", "TABLE", "RECORD", "FILTER").add_argument(
        "--budget", type=int, default=MOST_TESTS, help="the most tests to make")
    command(list_, "what a reference names in a record", "TABLE", "RECORD", "REFERENCE?").add_argument(
        "--no-defaults", action="store_true", help="an absent member names nothing")
    command(check, "whether a table is admitted and a record is good", "TABLE", "RECORD?")
    command(why, "why a table, a record or a filter is refused", "TABLE", "RECORD?", "FILTER?")
    command(explain, "the truth of each item of a filter, and why one is Undefined", "TABLE", "RECORD", "FILTER")
    command(each, "the truth of a filter about each component that a reference names", "TABLE", "RECORD", "REFERENCE", "FILTER")
    _run_arguments(command(run_, "one filter about many records: the ids of those where it is TRUE", "TABLE", "FILTER"))
    _table_arguments(command(table, "a table from a Python file of the builder, or a table as text"))
    command(quote, "a text as the quoted string that stands for it in a filter", "TEXT")
    command(escape, "the value of an attribute as it stands in the text of a distinguished name", "TEXT")
    return top


def _run_arguments(one: argparse.ArgumentParser) -> None:
    one.add_argument("files", metavar="FILE", nargs="*", help="records")
    one.add_argument("--sqlite", nargs=2, metavar=("DB", "QUERY"), help="records of a query that gives id and record")
    one.add_argument("--undefined", metavar="FILE", default=UNDEFINED_FILE, help="where Undefined ids go (%(default)s)")
    one.add_argument("--refused", metavar="FILE", default=REFUSED_FILE, help="where refused ids go (%(default)s)")


def _table_arguments(one: argparse.ArgumentParser) -> None:
    one.add_argument("file", metavar="FILE.py", nargs="?", help="a Python file, which is run and sets `table` to a description")
    one.add_argument("--show", metavar="TABLE", help="a table, as text")
    one.add_argument("-o", "--output", metavar="FILE", help="where the table goes (standard output)")


def say(*lines: str) -> None:
    """Lines on standard output."""
    for line in lines:
        sys.stdout.write(line + "\n")


def complain(message: str) -> None:
    """A message on standard error, where there is one that takes it."""
    try:
        if sys.stderr is not None:
            print("tezqulom: " + message, file=sys.stderr, flush=True)
    except OSError:
        pass


def plain_json(value: Plain) -> Any:
    """A value for JSON: octets in hexadecimal digits, times in text."""
    return value.hex().upper() if isinstance(value, bytes) else str(value) if isinstance(value, Time) else value


def refused_message(refused: Refused, table: Input, record: Optional[Input] = None, asked: Optional[Input] = None) -> str:
    """A refusal in a sentence that names the file, with its cause where that is found."""
    sentence, cause, name = refused.sentence, None, table.name
    if refused.refusal is Refusal.TABLE:
        cause = clauses.why_table(table.octets)
    elif refused.refusal is Refusal.VALUE and record is not None:
        name, cause = record.name, records.why_value(table.octets, record.octets)
    elif refused.refusal is Refusal.FORM and asked is not None:
        name = asked.name
        cause = None if asked.name == "the reference" else filters.why_filter(table.octets, asked.octets)
    elif record is not None and sentence.startswith("the value"):
        name = record.name
    elif asked is not None and not sentence.startswith("the table"):
        name = asked.name
    return "%s: %s%s" % (name, refused, "" if cause is None else ": " + str(cause))


def say_refused(options: argparse.Namespace, refused: Refused, *inputs: Optional[Input]) -> int:
    """Say a refusal on both outputs."""
    message = refused_message(refused, *inputs)  # type: ignore[arg-type]
    if options.json:
        say(json.dumps({"answer": "REFUSED", "refusal": int(refused.refusal), "message": message}))
    else:
        say("REFUSED %d" % refused.refusal)
    complain(message)
    return REFUSED


def reference_input(reference: Optional[str]) -> Optional[Input]:
    """A reference as an input that messages name."""
    return None if reference is None else Input("the reference", reference.encode("utf-8", "surrogateescape"))


def show(options: argparse.Namespace, inputs: Inputs) -> int:
    """The record as a tree."""
    found, record = inputs.octets(options.table), inputs.octets(options.record)
    try:
        nodes = records.tree(found.octets, record.octets, options.reference)
    except Refused as refused:
        return say_refused(options, refused, found, record, reference_input(options.reference))
    if options.json:
        say(json.dumps([{**node._asdict(), "kind": node.kind.asn1, "value": plain_json(node.value)} for node in nodes]))
    else:
        say(*map(node_line, nodes))
    return DONE


def node_line(node: records.Node) -> str:
    """A component in one line: place, name, kind, value."""
    place = "%5d" % node.place if node.source == "stored" else " " * 5
    value = " " + gser(node.kind, node.value, node.names) if node.kind.basic and node.source != "absent" else ""
    if node.elements is not None:
        value = ", " + counted(node.elements, "element")
    mark = "" if node.source == "stored" else " (%s)" % node.source
    return "%s  %s%s%s%s%s" % (place, "  " * node.depth, node.name + " " if node.name else "", node.kind.asn1, value, mark)


def ask_(options: argparse.Namespace, inputs: Inputs) -> int:
    """The truth of a filter."""
    given = inputs.octets(options.table), inputs.octets(options.record), inputs.filter(options.filter)
    if options.budget < 0:
        raise Stop(USAGE, "--budget: a number below 0")
    try:
        answer = ask(*(one.octets for one in given), options.budget)
    except Refused as refused:
        return say_refused(options, refused, *given)
    say(json.dumps({"answer": answer.truth.name, "tests": answer.tests}) if options.json else "%s %d" % (answer.truth.name, answer.tests))
    return STATUS[answer.truth]


def list_(options: argparse.Namespace, inputs: Inputs) -> int:
    """What a reference names."""
    found, record = inputs.octets(options.table), inputs.octets(options.record)
    try:
        parts = records.parts(found.octets, record.octets, options.reference, not options.no_defaults)
    except Refused as refused:
        return say_refused(options, refused, found, record, reference_input(options.reference))
    if options.json:
        say(json.dumps([part_json(part) for part in parts]))
    else:
        say(*map(part_line, parts))
    return DONE


def part_json(part: records.Part) -> Dict[str, Any]:
    """A listed component for JSON."""
    named, names = part.component, {} if part.names is None else {"names": part.names}
    return {"source": type(named).__name__.lower(), **named._asdict(), "reference": part.reference, "kind": part.kind.asn1, "value": plain_json(part.value),
            **names}


def part_line(part: records.Part) -> str:
    """A listed component in one line: source, place, number, reference, kind, value."""
    named = part.component
    reference = part.reference + " " if part.reference else ""
    return "%s %d %d %s%s %s" % (type(named).__name__.lower(), *named, reference, part.kind.asn1, gser(part.kind, part.value, part.names))


def check(options: argparse.Namespace, inputs: Inputs) -> int:
    """Whether a table and a record are good."""
    found = inputs.octets(options.table)
    record = None if options.record is None else inputs.octets(options.record)
    try:
        rows = check_table(found.octets)
        if record is not None:
            check_value(found.octets, record.octets)
    except Refused as refused:
        return say_refused(options, refused, found, record)
    if options.json:
        say(json.dumps({"answer": "GOOD", "rows": rows}))
    else:
        say("%s: admitted, %s" % (found.name, counted(rows, "row")), *([] if record is None else ["%s: good" % record.name]))
    return DONE


def why(options: argparse.Namespace, inputs: Inputs) -> int:
    """Why something is refused."""
    found = inputs.octets(options.table)
    record = None if options.record is None else inputs.octets(options.record)
    text = None if options.filter is None else inputs.filter(options.filter)
    try:
        check_table(found.octets)
        if text is not None:
            ask(found.octets, record.octets, text.octets)  # type: ignore[union-attr]
        elif record is not None:
            check_value(found.octets, record.octets)
    except Refused as refused:
        message = refused_message(refused, found, record, text)
        say(json.dumps({"answer": "REFUSED", "refusal": int(refused.refusal), "message": message}) if options.json else message)
        return REFUSED
    say(json.dumps({"answer": "GOOD"}) if options.json else "nothing is refused")
    return DONE


def explain(options: argparse.Namespace, inputs: Inputs) -> int:
    """The truth of each item."""
    given = inputs.octets(options.table), inputs.octets(options.record), inputs.filter(options.filter)
    try:
        lines = filters.explain(*(one.octets for one in given))
    except Refused as refused:
        return say_refused(options, refused, *given)
    if options.json:
        say(json.dumps([{**line._asdict(), "truth": line.truth.name} for line in lines]))
    for line in () if options.json else lines:
        tests = "" if line.tests is None else " %d" % line.tests
        say("%s%s%s  %s" % ("  " * line.depth, line.truth.name, tests, printable(line.text, "")))
        if line.cause is not None:
            say("%s  because %s" % ("  " * line.depth, printable(line.cause, "")))
    return STATUS[lines[0].truth]


def each(options: argparse.Namespace, inputs: Inputs) -> int:
    """The truth of a filter about each named component."""
    found, record, text = inputs.octets(options.table), inputs.octets(options.record), inputs.filter(options.filter)
    try:
        parts = records.parts(found.octets, record.octets, options.reference)
    except Refused as refused:
        return say_refused(options, refused, found, record, reference_input(options.reference))
    try:
        answers = [asker(part.table, text.octets)(part.octets) for part in parts]
    except Refused as refused:
        return say_refused(options, refused, found, None, text)
    if options.json:
        say(json.dumps([{**part_json(part), "answer": answer.truth.name, "tests": answer.tests} for part, answer in zip(parts, answers)]))
    else:
        say(*("%s %d  %s" % (answer.truth.name, answer.tests, part_line(part)) for part, answer in zip(parts, answers)))
    return DONE


def run_(options: argparse.Namespace, inputs: Inputs) -> int:
    """The bill run."""
    if bool(options.sqlite) == bool(options.files):
        raise Stop(USAGE, "run: either --sqlite DB QUERY or files of records are needed")
    if os.path.abspath(options.undefined) == os.path.abspath(options.refused):
        raise Stop(USAGE, "run: --undefined and --refused are to be two files")
    found, text = inputs.octets(options.table), inputs.filter(options.filter)
    try:
        check_table(found.octets)
        cause = filters.why_filter(found.octets, text.octets)
    except Refused as refused:
        return say_refused(options, refused, found)
    if cause is not None:
        return say_refused(options, Refused(Refusal.FORM if len(text.octets) in range(1, 2049) else Refusal.SIZE), found, None, text)
    source = billrun.from_sqlite(*options.sqlite) if options.sqlite else billrun.from_files(inputs, options.files)
    tally = _billed(options, asker(found.octets, text.octets), source)
    if options.json:
        say(json.dumps(tally._asdict()))
    complain("%s; Undefined ids are in %s, refused ones in %s" % (tally, options.undefined, options.refused))
    return tally.status()


def _billed(options: argparse.Namespace, asked: Callable[..., Any], source: Iterable[Any]) -> billrun.Tally:
    """The run, with its files open."""
    with billrun.Lines(options.undefined) as undefined, billrun.Lines(options.refused) as refused:
        return billrun.Run(asked, sys.stdout, undefined, refused, options.json).all(iter(source))


def table(options: argparse.Namespace, inputs: Inputs) -> int:
    """A table from a file of the builder, or a table as text."""
    if (options.file is None) == (options.show is None):
        raise Stop(USAGE, "table: either FILE.py or --show TABLE is needed")
    if options.show is not None:
        return show_table(options, inputs)
    octets = built(options.file)
    if options.json:
        say(json.dumps({"table": octets.hex().upper()}))
    elif options.output is not None:
        write_octets(options.output, octets)
    elif sys.stdout.isatty():
        say(octets.hex().upper())
    else:
        sys.stdout.flush()
        sys.stdout.buffer.write(octets)
    return DONE


def show_table(options: argparse.Namespace, inputs: Inputs) -> int:
    """A table as text."""
    found = inputs.octets(options.show)
    try:
        text = Table(found.octets).text()
    except Refused as refused:
        return say_refused(options, refused, found)
    say(json.dumps({"text": text}) if options.json else text)
    return DONE


def built(path: str) -> bytes:
    """The table of a Python file, which is run."""
    Inputs().raw(path)
    try:
        names = runpy.run_path(path)
        if "table" not in names:
            raise Stop(REFUSED, "%s: it doesn't set `table`" % path)
        given = names["table"]
        return given if isinstance(given, bytes) and check_table(given) else builder.build(given)
    except (builder.TableError, Refused) as error:
        raise Stop(REFUSED, "%s: %s" % (path, error)) from None
    except Stop:
        raise
    except (Exception, SystemExit) as error:
        line = next((frame.lineno for frame in reversed(traceback.extract_tb(error.__traceback__)) if frame.filename == path), None)
        where = " in line %d" % line if line else ""
        raise Stop(NO_INPUT, "%s: %s%s: %s" % (path, type(error).__name__, where, error)) from None


def write_octets(path: str, octets: bytes) -> None:
    """Write a file."""
    try:
        with open(path, "wb") as file:
            file.write(octets)
    except OSError as error:
        raise Stop(WRITE_ERROR, "%s: %s" % (path, (error.strerror or str(error)).lower())) from None


def quote(options: argparse.Namespace, _inputs: Inputs) -> int:
    """A text, quoted."""
    try:
        text = quoted(options.text.encode("utf-8", "surrogateescape"))
    except NotQuoted as error:
        raise Stop(USAGE, "quote: %s" % error) from None
    say(json.dumps({"quoted": text}) if options.json else text)
    return DONE


def escape(options: argparse.Namespace, _inputs: Inputs) -> int:
    """The value of an attribute, escaped."""
    try:
        text = escaped(options.text.encode("utf-8", "surrogateescape"))
    except NotQuoted as error:
        raise Stop(USAGE, "escape: %s" % error) from None
    say(json.dumps({"escaped": text}) if options.json else text)
    return DONE


for _function in (ask_, list_, run_):
    _function.__name__ = _function.__name__.rstrip("_")


def main(arguments: Optional[List[str]] = None) -> int:
    """The command; its exit status."""
    try:
        options = parser().parse_args(arguments)
        status = options.function(options, Inputs())
        sys.stdout.flush()
        return status
    except Stop as stop:
        complain(str(stop))
        return flushed(stop.status)
    except ImportError as error:
        complain(str(error))
        return NO_INPUT
    except OSError as error:
        complain("standard output: %s" % (error.strerror or str(error)).lower())
        return WRITE_ERROR


def flushed(status: int) -> int:
    """The status, or that of a write error."""
    try:
        sys.stdout.flush()
    except OSError:
        return WRITE_ERROR
    return status


def run() -> NoReturn:
    """The command as a process: what standard output holds back is written or dropped before it ends."""
    if sys.stdout is None:
        complain("standard output: it is closed")
        sys.exit(WRITE_ERROR)
    for stream in (sys.stdout, sys.stderr):
        if stream is not None:
            stream.reconfigure(errors="backslashreplace")  # type: ignore[union-attr]
    try:
        status = main()
    except SystemExit as end:
        status = flushed(end.code if isinstance(end.code, int) else DONE)
    except KeyboardInterrupt:
        status = INTERRUPTED
    except OSError:
        status = WRITE_ERROR
    except Exception:  # a mistake in the command: its status must not be that of an answer
        traceback.print_exc()
        status = MISTAKE
    try:
        sys.stdout.flush()
    except OSError:
        status = WRITE_ERROR
        os.dup2(os.open(os.devnull, os.O_WRONLY), sys.stdout.fileno())
    sys.exit(status)
