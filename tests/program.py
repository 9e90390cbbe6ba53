#!/usr/bin/env python3
"""Runs crates/hopmap/out/hopmap on stored cases and compares what it writes and its status.

A case is a file tests/cases/NAME.case of sections, each begun by a line '== WORD ..':

    == log FILE           a log as readable text (samples/make.py says how it is written)
    == bytes FILE         a file as hexadecimal bytes, with spaces and lines as one likes
    == call WORDS         a call of the program, its words split as a shell would
    == status N           the status that the call ends with
    == stdout             what it writes to standard output
    == stderr             what it writes to standard error

A case may have several calls; status, stdout and stderr belong to the call before them. A call without 'stdout' or 'stderr'
writes nothing there; 'USAGE' alone on a line stands for the usage, which is tests/cases/usage.txt. Each case is run in a
folder of its own, which has the sample logs and the files that the case names.

The expected texts are worked out by hand from docs/RULES.md and docs/LOG-FORMAT.md.
"""
import pathlib
import shlex
import shutil
import subprocess
import sys
import tempfile

ROOT = pathlib.Path(__file__).resolve().parent.parent
PROGRAM = ROOT / "crates" / "hopmap" / "out" / "hopmap"
CASES = ROOT / "tests" / "cases"
sys.path.insert(0, str(ROOT / "samples"))
sys.dont_write_bytecode = True
import make  # noqa: E402


def sections(text):
    """The sections of a case: their heads, as lists of words, and their texts."""
    found = []
    for line in text.splitlines(keepends=True):
        if line.startswith("== "):
            found.append((shlex.split(line[3:]), []))
        elif found:
            found[-1][1].append(line)
    return [(head, "".join(body)) for head, body in found]


class Call:
    def __init__(self, words):
        self.words = words
        self.expected = {"status": 0, "stdout": "", "stderr": ""}

    def differences(self, folder):
        run = subprocess.run([PROGRAM, *self.words], cwd=folder, capture_output=True, text=True, timeout=60)
        got = {"status": run.returncode, "stdout": run.stdout, "stderr": run.stderr}
        return [
            f"hopmap {shlex.join(self.words)}: {what} is\n{got[what]}\nand not\n{wanted}"
            for what, wanted in self.expected.items()
            if got[what] != wanted
        ]


def read_case(text, folder, usage):
    calls = []
    for head, body in sections(text):
        match head:
            case ["log", name]:
                (folder / name).write_bytes(make.log(body))
            case ["bytes", name]:
                (folder / name).write_bytes(bytes.fromhex(body))
            case ["call", *words]:
                calls.append(Call(words))
            case ["status", number]:
                calls[-1].expected["status"] = int(number)
            case ["stdout" | "stderr" as stream]:
                calls[-1].expected[stream] = body.replace("USAGE\n", usage)
            case _:
                sys.exit(f"not a section: {head}")
    return calls


def main():
    usage = (CASES / "usage.txt").read_text()
    passed, failed = 0, 0
    for path in sorted(CASES.glob("*.case")):
        with tempfile.TemporaryDirectory() as name:
            folder = pathlib.Path(name)
            for sample in (ROOT / "samples").glob("*.log"):
                shutil.copy(sample, folder)
            for call in read_case(path.read_text(), folder, usage):
                differences = call.differences(folder)
                passed, failed = (passed, failed + 1) if differences else (passed + 1, failed)
                for difference in differences:
                    print(f"{path.name}: {difference}")
    for sample in ("sent", "heard"):
        written = make.log((ROOT / "samples" / f"{sample}.txt").read_text())
        for copy in (ROOT / "samples" / f"{sample}.log", ROOT / "crates" / "hopmap" / "data" / f"{sample}.log"):
            same = copy.read_bytes() == written
            passed, failed = (passed + 1, failed) if same else (passed, failed + 1)
            if not same:
                print(f"{copy} is not what samples/{sample}.txt says")
    print(f"{passed} passed, {failed} failed")
    return 1 if failed or not passed else 0


if __name__ == "__main__":
    sys.exit(main())
