"""The script `report`, tried in a scratch copy of the repository's layout: what it prints, its exit statuses, when it
builds the program, and that it leaves nothing behind."""

import os
import re
import shutil
import signal
import subprocess
import time

import captures
import report
from messages import message

REFUSALS = {6: "queue count", 14: "libpcap", 15: "record", 22: "message", 23: "65,536"}

FAKE_RT = """#!/bin/sh
printf '%s|%s\\n' "$PWD" "$*" >> "$RT_LOG"
echo "rt says this"
[ -z "${RT_MAKES-}" ] || cp "$RT_MAKES" out/capture_report
exit "${RT_STATUS-0}"
"""


class Place:
    """A scratch folder with the script, the program, an empty crate, and a stand-in for rt that only notes its calls."""

    def __init__(self, folder, script, program):
        self.root = folder / "a copy"
        self.elsewhere = folder / "elsewhere"
        self.scratch = folder / "scratch"
        self.made = folder / "made"
        self.crate = self.root / "crates" / "capture_report"
        for path in (self.root / "crates" / "any", self.crate / "out", self.elsewhere, self.scratch, self.made):
            path.mkdir(parents=True)
        self.script = self.root / "report"
        shutil.copy(script, self.script)
        self.program = self.crate / "out" / "capture_report"
        self.source = self.root / "crates" / "any" / "source"
        self.list = self.root / "crates.txt"
        self.spare = folder / "program"
        shutil.copy(program, self.spare)
        self.log = folder / "log"
        (self.made / "rt").write_text(FAKE_RT)
        (self.made / "rt").chmod(0o755)
        for path in (self.source, self.list):
            path.write_text("")
            os.utime(path, (1000, 1000))
        self.put_program(2000)

    def put_program(self, when):
        shutil.copy(self.spare, self.program)
        os.utime(self.program, (when, when))

    def environment(self, **more):
        path = f"{self.made}:{os.environ['PATH']}"
        return {**os.environ, "PATH": path, "TMPDIR": str(self.scratch), "RT_LOG": str(self.log), **more}

    def run(self, *words, **more):
        """The exit status, standard output and standard error; called in another folder than its own."""
        self.log.write_text("")
        done = subprocess.run(
            [self.script, *words], cwd=self.elsewhere, env=self.environment(**more), capture_output=True, text=True, timeout=60
        )
        return done.returncode, done.stdout, done.stderr

    def write(self, name, octets):
        (self.elsewhere / name).write_bytes(octets)
        return name


class Checks:
    """Counts what was checked and prints what was not as it should be."""

    def __init__(self):
        self.count = 0
        self.failed = 0

    def check(self, name, good, seen=""):
        self.count += 1
        if not good:
            self.failed += 1
            print(f"NOT SO: ./report, {name}: {seen}")

    def same(self, name, seen, wanted):
        self.check(name, seen == wanted, f"{seen!r}, not {wanted!r}")


def reports(place, checks, settings, capture):
    """A report, called from another folder, with names of all sorts."""
    wanted = report.text(settings, capture)
    names = [("settings", "capture"), ("with spaces in it", "and in it"), ("-n", "--help"), ("-", "[a-z]*"), ("$(exit)", "';")]
    for names_of in names:
        words = [place.write(name, octets) for name, octets in zip(names_of, (settings, capture))]
        checks.same(f"files {words}", place.run(*words), (0, wanted, ""))
    absolute = [str(place.elsewhere / name) for name in names[0]]
    checks.same("absolute names", place.run(*absolute), (0, wanted, ""))
    checks.same("nothing is built", place.log.read_text(), "")
    checks.same("nothing is left in the scratch folder", os.listdir(place.scratch), [])


def bars_are_right(plot, text):
    """A line for each queue, whose bar is as long as its packets ask: the longest 50 characters, and none is left out."""
    packets = [int(line.split()[2]) for line in text.splitlines() if line.startswith("queue")]
    lines = plot.splitlines()
    if len(lines) != len(packets):
        return False
    for queue, (held, line) in enumerate(zip(packets, lines)):
        parts = re.fullmatch(r"queue +(\d+) +(\d+) +(\d+\.\d)% \|(#*)", line)
        if not parts or (int(parts[1]), int(parts[2])) != (queue, held):
            return False
        if abs(float(parts[3]) - 100 * held / max(sum(packets), 1)) > 0.051:
            return False
        scaled = int(50 * held / max(*packets, 1) + 0.5)
        if len(parts[4]) != max(scaled, min(held, 1)):
            return False
    return True


def plots(place, checks, settings, capture):
    """The bars, wherever the word stands; also without packets, with one packet among many, and on 64 queues."""
    busy = captures.write("little", captures.RAW_IP, [b"", b""] * 200 + [b"\x45" + bytes(19)])
    one_of_many = b"\x02" + message(5, (1).to_bytes(8, "little")) + message(3, (1).to_bytes(8, "little"))
    nothing = captures.write_header("big", captures.RAW_IP)
    for some, records in ((settings, capture), (b"\x01", nothing), (b"\x40", capture), (one_of_many, busy)):
        words = [place.write("settings", some), place.write("capture", records)]
        text = report.text(some, records)
        for at in range(3):
            status, out, err = place.run(*words[:at], "--plot", *words[at:])
            start, _, plot = out.partition("\n\n")
            checks.same(f"--plot at {at}", (status, f"{start}\n", err), (0, text, ""))
            checks.check(f"the bars, --plot at {at}", bars_are_right(plot, text), out)


def refusals(place, checks, settings, capture):
    """The program's line on standard output, and one sentence on standard error."""
    bad = {
        6: (b"\x00", capture),
        14: (settings, b""),
        15: (settings, capture[:-1]),
        22: (settings[:-1], capture),
        23: (settings, bytes(10**7)),
    }
    for number, files in bad.items():
        words = [place.write(name, octets) for name, octets in zip(("settings", "capture"), files)]
        for more in ([], ["--plot"]):
            status, out, err = place.run(*words, *more)
            checks.same(f"refusal {number}", (status, out), (1, f"refused {number}\n"))
            checks.check(f"words for {number}", re.fullmatch(r"[A-Z][^\n]*\.\n", err) and REFUSALS[number] in err, err)
    checks.same("nothing is left after refusals", os.listdir(place.scratch), [])


def wrong_calls(place, checks, settings, capture):
    """Missing and unreadable files, and too few or too many words."""
    good = [place.write("settings", settings), place.write("capture", capture)]
    (place.elsewhere / "folder").mkdir()
    missing = [("no such file", good[1]), (good[0], "-nothing"), ("", good[1]), ("no such file", "nor this")]
    unreadable = [("folder", good[1]), (good[0], "folder")]
    if os.geteuid() != 0:  # who may read everything
        (place.elsewhere / "locked").write_bytes(settings)
        (place.elsewhere / "locked").chmod(0)
        unreadable.append(("locked", good[1]))
    for words in missing + unreadable:
        status, out, err = place.run(*words)
        named = [word for word in words if word not in good][0]
        checks.same(f"files {words}", (status, out), (2, ""))
        checks.check(f"words on files {words}", err.count("\n") == 1 and named in err and "file" in err, err)
    for words in ([], ["--plot"], good[:1], [good[0], "--plot"], [*good, good[0]], [*good, "--plots"], ["--help"]):
        checks.same(f"words {words}", place.run(*words), (2, "", "usage: report SETTINGS CAPTURE [--plot]\n"))
    checks.same("nothing is left after wrong calls", os.listdir(place.scratch), [])


def builds(place, checks, settings, capture):
    """The program is built where it is missing or older than a file of the crates, and what rt says is hidden."""
    words = [place.write("settings", settings), place.write("capture", capture)]
    wanted, call = report.text(settings, capture), f"{place.crate}|run\n"
    for name, path in (("a newer source", place.source), ("a newer list of crates", place.list), ("no program", None)):
        if path is None:
            place.program.unlink()
        else:
            os.utime(path, (3000, 3000))
        # rt makes a program that is missing, and leaves one that is there
        status, out, err = place.run(*words, RT_MAKES=str(place.spare) if path is None else "")
        checks.same(f"{name}: output", (status, out, place.log.read_text()), (0, wanted, call))
        checks.check(f"{name}: hidden", "rt says this" not in err, err)
        checks.same(f"{name}: built once", (place.run(*words), place.log.read_text()), ((0, wanted, ""), ""))
        if path is not None:
            os.utime(path, (1000, 1000))
        place.put_program(2000)
    os.utime(place.source, (3000, 3000))
    status, out, err = place.run(*words, RT_STATUS="1")
    checks.same("a build that fails", (status, out, "rt says this" in err), (3, "", True))
    place.program.unlink()
    status, out, err = place.run(*words)
    checks.same("a build without a program", (status, out, "rt says this" in err), (3, "", True))
    place.program.write_text("#!/bin/sh\necho queue 0 0 0\nexit 7\n")
    place.program.chmod(0o755)
    status, out, err = place.run(*words)
    checks.check("a program that fails", status == 3 and "7" in err, (status, err))
    os.utime(place.source, (1000, 1000))
    place.put_program(2000)
    checks.same("nothing is left after builds", os.listdir(place.scratch), [])


def default_signals():
    """A shell cannot trap what was ignored at its start."""
    for number in (signal.SIGINT, signal.SIGTERM, signal.SIGHUP):
        signal.signal(number, signal.SIG_DFL)


def interruptions(place, checks, capture):
    """While it waits for a pipe that nobody writes, it is told to end, as a terminal tells all its processes."""
    os.mkfifo(place.elsewhere / "pipe")
    place.write("capture", capture)
    for number in (signal.SIGINT, signal.SIGTERM, signal.SIGHUP):
        running = subprocess.Popen(
            [place.script, "pipe", "capture"],
            cwd=place.elsewhere,
            env=place.environment(),
            stderr=subprocess.DEVNULL,
            start_new_session=True,
            preexec_fn=default_signals,
        )
        until = time.monotonic() + 10
        while not os.listdir(place.scratch) and time.monotonic() < until:
            time.sleep(0.01)
        time.sleep(0.2)  # until it waits for the pipe
        checks.check("a scratch folder while it runs", os.listdir(place.scratch) != [])
        os.killpg(running.pid, number)
        checks.same(f"status after {number.name}", running.wait(timeout=20), 128 + number)
        checks.same(f"nothing is left after {number.name}", os.listdir(place.scratch), [])


def in_place(checks, script, files):
    """The script where it stands, with the program that is built there."""
    done = subprocess.run([script, *files], capture_output=True, text=True, check=False)
    wanted = report.text(*(path.read_bytes() for path in files))
    checks.same("in its place", (done.returncode, done.stdout), (0, wanted))


def try_all(checks, folder, script, program, files):
    """In the scratch folder, with these settings and this capture."""
    settings, capture = (path.read_bytes() for path in files)
    place = Place(folder, script, program)
    for part in (reports, plots, refusals, wrong_calls, builds):
        part(place, checks, settings, capture)
    interruptions(place, checks, capture)
