"""A campaign from its file to its page: the plan, the workflow, and what is said of them."""
from __future__ import annotations

import argparse
import fcntl
import os
import signal
import subprocess
import sys
from contextlib import contextmanager
from dataclasses import replace
from pathlib import Path
from typing import Iterator, List, Optional, Sequence, Tuple

from safetynet import SafetyNetError
from safetynet.program import call

from .batch import forget_dead
from .configuration import RESULTS, Campaign, campaign_of, read_content
from .errors import CampaignError
from .gather import read_runs
from .page import PAGE
from .plan import LAUNCHER, TOP, Plan, images_for, shown, sum_of, with_batches, write_plan
from .progress import Progress
from .rows import REFUSAL_STATUSES
from .settings import Settings, Value

HERE = Path(__file__).resolve().parents[1]
LOG = "logs/workflow.log"


def say(text: str) -> None:
    print(f"campaign: {text}", file=sys.stderr, flush=True)


def find_program() -> Path:
    """The proved program: what SAFETYNET names, else the checkout's, once it is built, or an archive's.

    Raises
    ------
    CampaignError
        It isn't there.
    """
    named = os.environ.get("SAFETYNET")
    program = Path(named) if named else TOP / ("build" if LAUNCHER.startswith(".") else "bin") / "safetynet"
    if not os.access(program, os.X_OK) or program.is_dir():
        raise CampaignError(f"{program} is no program that may be executed" if named else "the program isn't built: run ./safetynet --build")
    return program.resolve()


@contextmanager
def held(folder: Path) -> Iterator[None]:
    """Holds a campaign's folder, until the end or until the process dies.

    Raises
    ------
    CampaignError
        Another call holds it.
    """
    folder.mkdir(parents=True, exist_ok=True)
    with open(folder / "lock", "w", encoding="ascii") as lock:
        try:
            fcntl.flock(lock, fcntl.LOCK_EX | fcntl.LOCK_NB)
        except OSError:
            raise CampaignError(f"another call works on {shown(folder)}") from None
        yield


def has_option(program: Path, option: str) -> bool:
    """Whether the page of the program's run names an option."""
    return option.encode() in call(["run", "--help"], command=program).console


def plan_of(content: object, campaign: Campaign, folder: Path, program: Path) -> Plan:
    """The plan of a campaign, without its batches.

    Raises
    ------
    CampaignError
        The program, or one of those that are run, isn't as it has to be.
    """
    try:
        version = call(["--version"], command=program).console.decode("ascii", "replace").strip()
        statistics = campaign.statistics and has_option(program, "--statistics")
    except SafetyNetError as error:
        raise CampaignError(f"{program} isn't the program: {error}") from None
    images = images_for(campaign, folder / "images")
    return Plan(folder, campaign, content, str(program), version, sum_of(program), statistics, images)


def _firsts(campaign: Campaign) -> Iterator[Tuple[str, Value, Settings]]:
    """Each value of each axis, with a configuration that has it; of a range its two ends."""
    for product in campaign.products:
        size = 1
        for name, values in reversed(product.axes):
            places = sorted({0, len(values) - 1}) if isinstance(values, range) else range(len(values))
            for place in places:
                yield name, values[place], product[place * size]
            size *= len(values)


def ask_program(plan: Plan) -> None:
    """Asks the program for a run of one event with each value, so that one that it refuses is told before the first run.

    Raises
    ------
    CampaignError
        It refuses one; of values that don't suit each other some may be refused later, as a row.
    """
    firsts = {(name, value): settings for name, value, settings in _firsts(plan.campaign)}
    for (name, _), settings in firsts.items():
        asked = settings if name == "budget" else replace(settings, budget=1)
        words = asked.words(str(plan.image(settings)), *plan.options(asked))
        try:
            called = call(words, command=plan.program, timeout=plan.campaign.timeout)
        except SafetyNetError as error:
            raise CampaignError(f"{' '.join(words)}: {error}") from None
        if called.status in REFUSAL_STATUSES:
            raise CampaignError(f"the program refuses {called.words}: {called.why}")


def workflow(plan: Plan, options: argparse.Namespace) -> List[str]:
    """The words that start the workflow."""
    words = [sys.executable, "-m", "snakemake", "--snakefile", str(HERE / "Snakefile"), "--directory", str(plan.folder)]
    words += ["--nolock", "--rerun-triggers", "mtime", "--keep-going"]
    # What a killed workflow hadn't noted as ended: each file gets its name once it is whole, so one that is there isn't made again; and a job of
    # the scheduler that it left isn't waited for by its number.
    words += ["--ignore-incomplete", "--rerun-incomplete"]
    if options.profile:
        words += ["--profile", str(Path(options.profile).resolve()) if Path(options.profile).is_dir() else options.profile]
    if options.jobs or not options.profile:
        words += ["--jobs", str(options.jobs or os.cpu_count() or 1)]
    return words + list(options.more)


def conduct(words: Sequence[str], plan: Plan) -> int:
    """Runs the workflow to its end, shows how far it is, and gives its status."""
    log = plan.folder / LOG
    log.parent.mkdir(exist_ok=True)
    progress = Progress(plan)
    with open(log, "wb") as out:
        process = subprocess.Popen(words, stdin=subprocess.DEVNULL, stdout=out, stderr=subprocess.STDOUT)
        previous = signal.signal(signal.SIGTERM, lambda *_: process.terminate())
        try:
            while process.poll() is None:
                progress.show()
                try:
                    process.wait(0.5)
                except subprocess.TimeoutExpired:
                    pass
        except KeyboardInterrupt:
            # The workflow was interrupted too, and ends its jobs.
            process.wait()
        finally:
            signal.signal(signal.SIGTERM, previous)
    progress.show(is_last=True)
    return process.returncode


def report(plan: Plan, status: int) -> int:
    """Says how a campaign ended, and gives the status of the call."""
    lacking = [batch for batch in plan.batches if not plan.file(batch).exists()]
    if lacking or status != 0:
        say(f"it isn't done; {len(lacking)} of {len(plan.batches)} batches are lacking, and the next call goes on")
        say(f"what happened: {shown(plan.folder / LOG)}")
        for batch in lacking[:5]:
            say(f"batch {batch.name}, runs {batch.first} to {batch.last}: logs/{batch.name}.log")
        return 1
    ends = [row["end"] for row in read_runs(plan.folder)]
    counts = ", ".join(f"{ends.count(end)} {end}" for end in sorted(set(ends)))
    say(f"{counts}; {shown(plan.folder / PAGE)}")
    failed = sum(end not in RESULTS for end in ends)
    if failed:
        say(f"{failed} runs gave no result; the page names them, and the next call tries those again that died")
    return 1 if failed else 0


def parsed(words: Sequence[str]) -> argparse.Namespace:
    """The words of `campaigns/run`."""
    about = "Runs a campaign; one that was interrupted goes on. What stands behind -- goes to Snakemake."
    parser = argparse.ArgumentParser(prog="campaigns/run", description=about)
    parser.add_argument("config", nargs="?", default=str(HERE / "config.yaml"), help="the campaign's file [default: campaigns/config.yaml]")
    parser.add_argument("-j", "--jobs", type=int, help="how many batches at once [default: as many as processors, or as the profile says]")
    parser.add_argument("--profile", help="a profile of Snakemake, as campaigns/slurm")
    parser.add_argument("--out", default=str(HERE / "out"), help="where the campaign's folder stands [default: campaigns/out]")
    words, more = (list(words[: words.index("--")]), list(words[words.index("--") + 1 :])) if "--" in words else (list(words), [])
    options = parser.parse_args(words)
    options.more = more
    return options


def main(words: Optional[Sequence[str]] = None) -> int:
    """Runs a campaign; 0 where each of its runs gave a result, 1 where not, 2 where it wasn't begun."""
    options = parsed(sys.argv[1:] if words is None else words)
    try:
        file = Path(options.config)
        content = read_content(file)
        campaign = campaign_of(content, file.stem)
        folder = Path(options.out).resolve() / campaign.name
        with held(folder):
            plan = plan_of(content, campaign, folder, find_program())
            ask_program(plan)
            plan = with_batches(plan)
            write_plan(plan)
            again = forget_dead(plan)
            say(f"{len(campaign):,} runs in {len(plan.batches):,} batches" + (f"; {again} that died are tried again" if again else ""))
            return report(plan, conduct(workflow(plan, options), plan))
    except CampaignError as error:
        say(str(error))
        return 2
