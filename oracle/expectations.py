"""Writes the programs' cases, the output expected of them and the example captures, or checks that the stored ones are
those.

    python3 oracle/expectations.py            write them, and remove files of cases that are left over
    python3 oracle/expectations.py --check    exit 1 where a stored file is another or is left over
"""

import pathlib
import sys

import event_cases
import guest_cases
import messages_cases
import packet_cases
import report_cases
import report_example
import toeplitz_cases

ROOT = pathlib.Path(__file__).resolve().parent.parent

# The modules, by the folder below which the paths of their files are.
PARTS = {
    "crates": [toeplitz_cases, messages_cases, packet_cases, event_cases, guest_cases, report_cases],
    "examples/report": [report_example],
}


def wanted():
    """Each stored file, by its path below the repository, with the octets that it must have."""
    for folder, parts in PARTS.items():
        for part in parts:
            for name, octets in part.files().items():
                yield f"{folder}/{name}", octets


def is_stored(path, octets):
    return path.is_file() and path.read_bytes() == octets


def write(files, names):
    for path, octets in ((ROOT / name, files[name]) for name in names):
        path.parent.mkdir(parents=True, exist_ok=True)
        path.write_bytes(octets)


def remove(names):
    for name in names:
        (ROOT / name).unlink()


def left_over(names):
    """The stored files of cases that are none of these: of a program whose cases fill fewer files than before."""
    stored = (path.relative_to(ROOT).as_posix() for path in ROOT.glob("crates/*/data/cases*"))
    return sorted(set(stored) - set(names))


def main(words):
    check = words == ["--check"]
    if words and not check:
        sys.exit(__doc__)
    files = dict(wanted())
    wrong = [name for name, octets in files.items() if not is_stored(ROOT / name, octets)]
    others = left_over(files)
    if not check:
        write(files, wrong)
        remove(others)
        wrong, others = [], []
    for name in wrong:
        print(f"expectations: {name} is not what the oracle writes")
    for name in others:
        print(f"expectations: {name} is no file that the oracle writes")
    print(f"expectations: {len(files) - len(wrong)} of {len(files)} files are what the oracle writes")
    return 1 if wrong or others else 0


if __name__ == "__main__":
    sys.exit(main(sys.argv[1:]))
