"""What a campaign runs, fixed in its folder before the first run: program, images, settings, and how they are cut into batches.

A batch is named after what is in it: the program's sum, the images' sums, the words of its runs. So a campaign that is begun again does only the
batches that aren't there, and one whose file has changed since does those that changed.
"""
from __future__ import annotations

import hashlib
import json
import os
from dataclasses import dataclass, replace
from pathlib import Path
from typing import Dict, Iterator, List, NamedTuple, Tuple

from .configuration import Campaign, campaign_of
from .errors import CampaignError
from .images import image_of
from .settings import Settings

FORM = "safetynet campaign 1"
FILE = "plan.json"
TOP = Path(__file__).resolve().parents[2]
# What starts the program from there, in a checkout and in an archive that tools/release made.
LAUNCHER = "./safetynet" if (TOP / "safetynet").exists() else "bin/safetynet"


class Batch(NamedTuple):
    """Runs that one job makes: their name, and the first and the last of them, from 1."""

    name: str
    first: int
    last: int


class Made(NamedTuple):
    """A file to run that was made, from the campaign's folder; empty where the program itself is run. And its sum."""

    image: str
    sum: str


@dataclass(frozen=True)
class Plan:
    """A campaign as it is run.

    Attributes
    ----------
    folder : pathlib.Path
        Where all of it stands.
    campaign : Campaign
        What its file says.
    content : object
        That file's content.
    program : str
        The proved program.
    version, sum : str
        What it says to ``--version``, and its SHA-256.
    statistics : bool
        Whether it has ``--statistics``, and the campaign wants them.
    images : dict
        The file to run for each program and number of nodes.
    batches : tuple of Batch
        The batches, in order of their runs.
    """

    folder: Path
    campaign: Campaign
    content: object
    program: str
    version: str
    sum: str
    statistics: bool
    images: Dict[Tuple[str, int], Made]
    batches: Tuple[Batch, ...] = ()

    def made(self, settings: Settings) -> Made:
        """What was made of a run's program."""
        return self.images[settings.program, settings.nodes]

    def image(self, settings: Settings) -> Path:
        """The file that a run is given."""
        return image_path(self.folder, settings.program, self.made(settings).image)

    def counts(self, settings: Settings) -> bool:
        """Whether a run is counted: the program counts only runs whose turns come in an order."""
        return self.statistics and settings.order != "threads"

    def options(self, settings: Settings) -> List[str]:
        """The options that a run has beside its settings. Statistics and a journal don't stand together, so a counted run has its journal
        from a second call of the same words, which is the same run."""
        if self.counts(settings):
            return ["--statistics"]
        return ["--journal"] if self.campaign.journals != "none" else []

    def batch(self, name: str) -> Batch:
        """The batch of a name.

        Raises
        ------
        CampaignError
            There is none.
        """
        for one in self.batches:
            if one.name == name:
                return one
        raise CampaignError(f"{name} is no batch of this campaign")

    def file(self, batch: Batch) -> Path:
        """The rows of a batch, once it is whole."""
        return self.folder / "batches" / f"{batch.name}.jsonl"

    def part(self, batch: Batch) -> Path:
        """The rows of a batch that isn't whole yet."""
        return self.folder / "batches" / f"{batch.name}.part"


def image_path(folder: Path, program: str, image: str) -> Path:
    """The file that a run is given, by the campaign's folder, its program, and what was made of that."""
    return folder / image if image else TOP / program


def sum_of(file: Path) -> str:
    """The SHA-256 of a file.

    Raises
    ------
    CampaignError
        It can't be read.
    """
    try:
        return hashlib.sha256(file.read_bytes()).hexdigest()
    except OSError as error:
        raise CampaignError(f"{file} can't be read: {error.strerror}") from None


def shown(path: Path) -> str:
    """A path from the top of the checkout where it is below that, and else the whole."""
    try:
        return str(path.resolve().relative_to(TOP))
    except ValueError:
        return str(path.resolve())


def images_for(campaign: Campaign, folder: Path) -> Dict[Tuple[str, int], Made]:
    """The file to run for each program and number of nodes of a campaign; those that have to be made stand in the folder.

    Raises
    ------
    CampaignError
        A program isn't there or can't be compiled, or two would be made under one name.
    """
    folder.mkdir(parents=True, exist_ok=True)
    found: Dict[Tuple[str, int], Made] = {}
    owner: Dict[Path, str] = {}
    for product in campaign.products:
        axes = dict(product.axes)
        for program in map(str, axes["program"]):
            for nodes in axes.get("nodes", (Settings(program).nodes,)):
                made = image_of(TOP / program, int(nodes), folder)
                if owner.setdefault(made, program) != program:
                    raise CampaignError(f"{program} and {owner[made]} have one name")
                image = "" if made == TOP / program else f"{folder.name}/{made.name}"
                found[program, int(nodes)] = Made(image, sum_of(made))
    return found


def _batches(plan: Plan) -> Iterator[Batch]:
    """The batches of a plan, each named after what is in it."""
    head = json.dumps([plan.sum, plan.statistics, plan.campaign.journals])
    size = plan.campaign.batch
    content, first = hashlib.sha256(head.encode()), 1
    for run, settings in enumerate(plan.campaign, 1):
        content.update(f"{run} {settings} {plan.made(settings).sum}\n".encode())
        if run - first + 1 == size or run == len(plan.campaign):
            yield Batch(content.hexdigest()[:16], first, run)
            content, first = hashlib.sha256(head.encode()), run + 1


def with_batches(plan: Plan) -> Plan:
    """The same plan, cut into batches."""
    return replace(plan, batches=tuple(_batches(plan)))


def write_plan(plan: Plan) -> None:
    """Writes the plan into its folder, unless it stands there already."""
    images = [[program, nodes, *made] for (program, nodes), made in plan.images.items()]
    values = {name: value for name, value in plan.__dict__.items() if name not in ("folder", "campaign")}
    text = json.dumps({"form": FORM, "name": plan.campaign.name, **values, "images": images}, indent=1) + "\n"
    file = plan.folder / FILE
    if not file.exists() or file.read_text(encoding="utf-8") != text:
        beside = file.with_suffix(".new")
        beside.write_text(text, encoding="utf-8")
        os.replace(beside, file)


def read_plan(folder: Path) -> Plan:
    """The plan that stands in a folder.

    Raises
    ------
    CampaignError
        There is none.
    """
    try:
        values = json.loads((folder / FILE).read_text(encoding="utf-8"))
    except (OSError, ValueError) as error:
        raise CampaignError(f"{folder} has no plan: {error}") from None
    if values.pop("form", None) != FORM:
        raise CampaignError(f"{folder / FILE} has another form")
    campaign = campaign_of(values["content"], values.pop("name"))
    values["images"] = {(program, nodes): Made(image, total) for program, nodes, image, total in values["images"]}
    values["batches"] = tuple(Batch(*one) for one in values["batches"])
    return Plan(folder=folder, campaign=campaign, **values)
