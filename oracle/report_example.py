"""The example of the capture report: what examples/report/make writes, and what the program must print of it."""

import pathlib
import runpy

import report

MAKE = pathlib.Path(__file__).resolve().parent.parent / "examples" / "report" / "make"


def files():
    """Each stored file, by its path below examples/report/, with the octets that it must have."""
    made = runpy.run_path(str(MAKE))["files"]()
    directions_meet(made)
    return made


def busy_queues(settings, capture):
    queues, _unhashed, _records = report.answer(settings, capture)[1]
    return [queue for queue, (held, _octets) in enumerate(queues) if held]


def directions_meet(made):
    """The firewall's key brings the two directions of the conversation onto one queue, the other key onto two; and the
    packets of the other two captures come onto every queue."""
    assert len(busy_queues(made["firewall.settings"], made["conversation.pcap"])) == 1
    assert len(busy_queues(made["settings"], made["conversation.pcap"])) == 2
    for name in ("office.pcap", "tunnel.pcap"):
        assert busy_queues(made["settings"], made[name]) == [0, 1, 2, 3], name


def program_files(made):
    """The files of the program `capture_report`, by their paths below crates/: what it reads, and what it must print."""
    settings, capture = made["settings"], made["office.pcap"]
    return {
        "capture_report/data/settings": settings,
        "capture_report/data/capture": capture,
        "capture_report/stdout": report.text(settings, capture).encode(),
    }
