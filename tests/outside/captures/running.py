"""The program run on files, and what it prints compared with the independent program's words and with libpcap's counts."""

import collections
import subprocess

import report

MOST_SHOWN = 8


class Program:
    """The program, run in a folder of its own."""

    def __init__(self, path, folder):
        self.path, self.folder = path, folder
        self.runs = 0

    def printed(self, settings, capture):
        """What it prints of these octets. Nothing stands for a file that is missing."""
        for name, octets in (("settings", settings), ("capture", capture)):
            if octets is None:
                (self.folder / name).unlink(missing_ok=True)
            else:
                (self.folder / name).write_bytes(octets)
        self.runs += 1
        done = subprocess.run([self.path], cwd=self.folder, stdin=subprocess.DEVNULL, capture_output=True, timeout=60)
        if done.returncode != 0 or done.stderr:
            return f"status {done.returncode}, and on standard error: {done.stderr.decode(errors='replace')}"
        return done.stdout.decode(errors="replace")


class Libpcap:
    """What libpcap reads."""

    def __init__(self, source, program):
        self.program = program
        strict = ["-std=c11", "-O2", "-Wall", "-Wextra", "-Werror", "-pedantic"]
        subprocess.run(["gcc", *strict, "-o", program, source, "-lpcap"], check=True)

    def lengths(self, capture):
        """The captured length of each record."""
        done = subprocess.run([self.program, "-"], input=capture, capture_output=True, check=True)
        return [int(line) for line in done.stdout.split()]


class Comparison:
    """Counts the inputs and the differences, and keeps inputs on which wrong rules are tried."""

    def __init__(self, program, different):
        self.program, self.different = program, different
        self.answers = collections.Counter()
        self.differences = 0
        self.kept = []

    def compare(self, name, settings, capture, keep=True):
        """The program's words are the independent program's."""
        printed = self.expect(name, settings, capture, report.text(settings or b"", capture or b""))
        if keep:
            self.kept.append((settings or b"", capture or b"", printed))
        return printed

    def expect(self, name, settings, capture, wanted, part=lambda printed: printed):
        """The program prints what is wanted, or a part of it is."""
        printed = self.program.printed(settings, capture)
        self.answers[printed.strip() if printed.startswith("refused") else "a report"] += 1
        if part(printed) != wanted:
            self.difference(name, settings, capture, printed, wanted)
        return printed

    def difference(self, name, settings, capture, printed, wanted):
        self.differences += 1
        folder = self.different / str(self.differences)
        folder.mkdir(parents=True, exist_ok=True)
        for file, octets in (("settings", settings), ("capture", capture)):
            if octets is not None:
                (folder / file).write_bytes(octets)
        print(f"DIFFERENT: {name}; the files are in {folder}\nprinted:\n{printed}\nwanted:\n{wanted}")
        if self.differences == MOST_SHOWN:
            raise SystemExit(f"{self.differences} differences, and no more is compared")


def last_line(printed):
    return printed.splitlines()[-1] if printed else ""
