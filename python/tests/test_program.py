"""Where the program is, and how a call of it ends, by programs that end in every way."""
from __future__ import annotations

import os
import pickle
import time
from pathlib import Path
from typing import Callable

import pytest

from safetynet import ProgramKilled, ProgramMissing, ProgramTimeout, ReportError, SafetyNetError, find_program
from safetynet.program import call

Make = Callable[[str], str]


def test_the_program_is_looked_for_in_this_order(made: Make, monkeypatch: pytest.MonkeyPatch, tmp_path: Path) -> None:
    named, said = made("exit 0"), made("exit 0")
    monkeypatch.setenv("SAFETYNET", said)
    assert str(find_program(named)) == named
    assert str(find_program()) == said
    monkeypatch.delenv("SAFETYNET")
    on_path = tmp_path / "safetynet"
    on_path.write_text("#!/bin/sh\n")
    on_path.chmod(0o755)
    monkeypatch.setenv("PATH", str(tmp_path))
    assert find_program() == on_path
    monkeypatch.setenv("PATH", "")
    checkout = Path(__file__).resolve().parents[2] / "safetynet"
    if (checkout.parent / "build" / "safetynet").is_file():
        assert find_program() == checkout
    else:
        with pytest.raises(ProgramMissing, match="isn't built: run .*/safetynet --build"):
            find_program()


@pytest.mark.parametrize("name", ["", "/nowhere/safetynet", "no-such-program-here"])
def test_a_program_that_is_lacking_is_told(name: str) -> None:
    with pytest.raises(ProgramMissing) as found:
        call(["demo", "1"], command=name)
    assert found.value.status == 127 and found.value.why is not None and repr(name) in found.value.why


def test_a_program_that_cannot_be_started_is_told(tmp_path: Path) -> None:
    for number, content in enumerate(["", "#!/nowhere/shell\n"]):
        file = tmp_path / f"file{number}"
        file.write_text(content)
        file.chmod(0o755)
        with pytest.raises(ProgramMissing, match="file"):
            call(["demo", "1"], command=file)
        file.chmod(0o644)
        with pytest.raises(ProgramMissing, match="may be executed"):
            call(["demo", "1"], command=file)


def test_files_are_there_during_the_call_and_gone_after_it(made: Make) -> None:
    called = call(["one"], {"one": b"content\x00"}, command=made('pwd; cat "$1"'))
    folder, content = called.console.split(b"\n", 1)
    assert content == b"content\x00" and not os.path.exists(folder)


def test_a_killed_program_is_told(made: Make) -> None:
    with pytest.raises(ProgramKilled) as found:
        call([], command=made("echo half >&2; kill -SEGV $$"))
    assert (found.value.status, found.value.words) == (-11, "killed") and "SIGSEGV" in str(found.value)


@pytest.mark.parametrize("lines", ["sleep 30", "sleep 30 & exit 0", "while :; do echo more >&2; done"])
def test_a_program_that_does_not_end_is_ended(made: Make, lines: str) -> None:
    begun = time.monotonic()
    with pytest.raises(ProgramTimeout) as found:
        call([], command=made(lines), timeout=0.3)
    assert found.value.words == "timeout" and "0.3 s" in str(found.value)
    assert time.monotonic() - begun < 20


def test_an_ending_is_read_exactly(made: Make) -> None:
    called = call([], command=made("echo out; echo report >&2; echo '# safetynet: budget' >&2; exit 6"))
    assert (called.status, called.words, called.why, called.report) == (6, "budget", None, "report\n")
    assert called.console == b"out\n"
    reasons = "printf '%s\\n' '# events 3' '# why: one' '# why: two' '# safetynet: script badline' >&2; exit 4"
    called = call([], command=made(reasons))
    assert (called.words, called.why, called.report) == ("script badline", "one\ntwo", "# events 3\n")
    with pytest.raises(SafetyNetError) as found:
        called.raise_refusal()
    assert str(found.value) == "script badline (status 4): one\ntwo"


@pytest.mark.parametrize(
    "lines",
    [
        "exit 3",
        "echo '# safetynet: script badline' >&2; exit 3",
        "printf '# safetynet: store' >&2; exit 2",
        "echo '# safetynet: ' >&2; exit 2",
        "echo '# safetynet:store' >&2; exit 2",
        "echo '# safetynet: store' >&2; echo more >&2; exit 2",
        "echo '# safetynet: store' >&2; exit 0",
        "printf 'caf\\303\\251\\n' >&2; exit 0",
        "echo '# the toolchain is lacking' >&2; exit 125",
        "echo '# safetynet: store' >&2; exit 4",
    ],
)
def test_an_ending_of_another_form_is_told(made: Make, lines: str) -> None:
    with pytest.raises(ReportError) as found:
        call([], command=made(lines))
    assert found.value.words == "report" and found.value.status == int(lines[-1]) or "125" in str(found.value)


def test_what_a_wrapper_says_is_told(made: Make) -> None:
    with pytest.raises(ReportError, match="the toolchain is lacking") as found:
        call([], command=made("echo '# the toolchain is lacking' >&2; exit 125"))
    assert found.value.status == 125


@pytest.mark.parametrize(
    "error",
    [
        SafetyNetError(4, "script badline", "why"),
        ProgramMissing("why"),
        ProgramKilled(-9, "killed", "why"),
        ReportError("why", 3, "text", 0),
    ],
)
def test_errors_go_between_processes(error: SafetyNetError) -> None:
    again = pickle.loads(pickle.dumps(error))
    assert type(again) is type(error) and str(again) == str(error) and again.status == error.status
