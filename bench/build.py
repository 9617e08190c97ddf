"""Builds the harness of the benchmark in bench/out/build: the engine's archive, the independent implementation, asn1c's code, one program."""

import os
import pathlib
import shutil
import subprocess

import workloads

BENCH = pathlib.Path(__file__).resolve().parent
ROOT = BENCH.parent
OUT = BENCH / "out"
BUILD = OUT / "build"
ASN1C = BUILD / "asn1c"
QUESTIONS = BUILD / "questions"
HOSTILE = BUILD / "hostile"
MUTATED = BUILD / "mutated"
HARNESS = BUILD / "harness"
ARCHIVE = ROOT / "target" / "staticlib" / "libcapi.a"
# Without the second word asn1c 0.9.28 formats the texts of its debug output at each tag, though it prints none.
ASN1C_FLAGS = ["-DNDEBUG", "-DASN_DEBUG(...)=((void)0)"]


def run(words, **more):
    """Runs a program; its output is shown if it fails."""
    done = subprocess.run([str(word) for word in words], stdout=subprocess.PIPE, stderr=subprocess.STDOUT, text=True, **more)
    if done.returncode:
        raise SystemExit("%s\nbench: failed: %s" % (done.stdout, words[0]))
    return done.stdout


def need(*programs):
    """Ends the run where a program is missing."""
    for program in programs:
        if not shutil.which(program):
            raise SystemExit("bench: %s is not installed" % program)


def engine_archive(given):
    """The engine's archive: the one given, the one that is there, or a new one."""
    if given:
        return pathlib.Path(given).resolve()
    if not ARCHIVE.exists():
        need("rt")
        print("bench: bindings/archive (proves what is not proved yet)", flush=True)
        run([ROOT / "bindings" / "archive"])
    return ARCHIVE


def independent_archive():
    """The independent implementation's archive, a release build."""
    need("cargo")
    folder = BUILD / "cargo"
    run(["cargo", "build", "--release", "--offline", "--locked", "--target-dir", folder], cwd=BENCH / "in-process")
    return folder / "release" / "libin_process.a"


def asn1c_objects():
    """asn1c's code and the comparing by hand, compiled; None where asn1c is not installed."""
    if not shutil.which("asn1c"):
        print("bench: asn1c is not installed: skipped, the engine and the independent implementation alone are measured")
        return None
    shutil.rmtree(ASN1C, ignore_errors=True)
    ASN1C.mkdir()
    run(["asn1c", BENCH / "licence.asn1"], cwd=ASN1C)
    (ASN1C / "asserted.h").write_text(workloads.asserted_header())
    sources = sorted(path for path in ASN1C.glob("*.c") if path.name != "converter-sample.c")
    run(["gcc", "-O2", "-c", "-I", ASN1C] + ASN1C_FLAGS + sources, cwd=ASN1C)
    run(["gcc", "-O2", "-c", "-Wall", "-Wextra", "-I", ASN1C] + ASN1C_FLAGS + [BENCH / "harness" / "by_hand.c"], cwd=ASN1C)
    return sorted(ASN1C.glob("*.o"))


def harness(archive):
    """Builds all and writes the questions down; whether asn1c is measured."""
    need("gcc")
    BUILD.mkdir(parents=True, exist_ok=True)
    QUESTIONS.write_text("".join(question.line() + "\n" for question in workloads.questions()))
    engine, independent, asn1c = engine_archive(archive), independent_archive(), asn1c_objects()
    run(["gcc", "-O2", "-Wall", "-Wextra", "-o", HARNESS, "-I", ROOT / "include"] + (["-DWITH_ASN1C"] if asn1c else [])
        + [BENCH / "harness" / "main.c"] + (asn1c or []) + [engine, independent, "-lpthread", "-ldl", "-lm"])
    return bool(asn1c)


def versions():
    """The compilers, a line each."""
    words = [["gcc", "--version"], ["rustc", "--version"], ["asn1c", "-v"]]
    return [run(word).splitlines()[0] for word in words if shutil.which(word[0])]


def machine():
    """The kind of machine and how busy it is."""
    return "%s, %d processors, load average %.1f" % (os.uname().machine, os.cpu_count(), os.getloadavg()[0])
