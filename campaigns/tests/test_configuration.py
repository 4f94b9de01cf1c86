"""A campaign's file, and the configurations that it has."""
from __future__ import annotations

import itertools
from pathlib import Path
from typing import Any, Dict

import pytest

from campaign.configuration import campaign_of, read_content
from campaign.errors import CampaignError
from campaign.settings import Settings

CAMPAIGNS = Path(__file__).resolve().parents[1]
FILES = sorted([CAMPAIGNS / "config.yaml", *(CAMPAIGNS / "studies").glob("*.yaml")])
ONE: Dict[str, Any] = {"program": "a.hex"}


def test_a_product_has_every_choice_once_and_seeds_change_last() -> None:
    axes = {"program": ["a.hex", "b.hex"], "nodes": [1, 4], "seed": "5-7", "kill": ["none", "a0@10"]}
    campaign = campaign_of({"product": axes}, "x")
    wanted = [
        Settings(program, nodes=nodes, seed=seed, kill=kill)
        for seed, program, nodes, kill in itertools.product([5, 6, 7], ["a.hex", "b.hex"], [1, 4], ["none", "a0@10"])
    ]
    assert len(campaign) == 24 and list(campaign) == wanted and [campaign[place] for place in range(24)] == wanted
    for place in (-1, 24):
        with pytest.raises(IndexError):
            campaign[place]


def test_a_list_has_its_entries_one_after_another_behind_the_product() -> None:
    campaign = campaign_of({"product": ONE, "list": [{"program": "b.hex", "nodes": 2}, {"program": "c.hex", "seed": [3, "8-9"]}]}, "x")
    assert [(one.program, one.nodes, one.seed) for one in campaign] == [("a.hex", 4, 1), ("b.hex", 2, 1), ("c.hex", 4, 3), ("c.hex", 4, 8), ("c.hex", 4, 9)]


def test_a_million_configurations_are_found_without_making_them_all() -> None:
    campaign = campaign_of({"product": {**ONE, "seed": "1-1000000000", "nodes": [1, 2]}}, "x")
    assert sum(len(product) for product in campaign.products) == 2 * 10**9 and campaign[2 * 10**9 - 1] == Settings("a.hex", nodes=2, seed=10**9)


@pytest.mark.parametrize(
    "content, said",
    [
        (None, "keys"),
        ({}, "neither"),
        ({"product": ONE, "seeds": 3}, "'seeds'"),
        ({"product": {**ONE, "lose-every": 3}}, "lose_every"),
        ({"product": {"nodes": 4}}, "no program"),
        ({"product": {**ONE, "nodes": []}}, "no value"),
        ({"product": {**ONE, "nodes": [4, 4]}}, "twice"),
        ({"product": {**ONE, "nodes": "four"}}, "number"),
        ({"product": {**ONE, "nodes": True}}, "number"),
        ({"product": {**ONE, "wait": -1}}, "number"),
        ({"product": {**ONE, "kill": "c0@5"}}, "switch"),
        ({"product": {**ONE, "kill": None}}, "text"),
        ({"list": ONE}, "entries"),
        ({"list": [ONE, {}]}, "entry 2"),
        ({"product": ONE, "batch": 0}, "batch"),
        ({"product": ONE, "journals": "some"}, "unfinished"),
        ({"product": ONE, "name": "a/b"}, "name"),
        ({"product": ONE, "statistics": "yes"}, "true or false"),
        ({"product": ONE, "figures": [{"name": "f", "x": "nodes"}]}, "no y"),
        ({"product": ONE, "figures": [{"name": "f", "x": "nodes", "y": "events", "z": 1}]}, "'z'"),
        ({"product": ONE, "figures": [{"name": "f", "x": "nodes", "y": "events", "ends": ["died"]}]}, "done"),
        ({"product": ONE, "figures": [{"name": "f", "x": "nodes", "y": "events", "where": 4}]}, "columns"),
        ({"product": ONE, "figures": [{"name": "f", "x": "nodes", "y": "events"}] * 2}, "one name"),
    ],
)
def test_what_is_no_campaign_says_why(content: object, said: str) -> None:
    with pytest.raises(CampaignError, match=said):
        campaign_of(content, "x")


def test_a_file_that_is_no_yaml_or_not_there_is_named(tmp_path: Path) -> None:
    broken = tmp_path / "broken.yaml"
    broken.write_text("product: [")
    for file in (broken, tmp_path / "lacking.yaml"):
        with pytest.raises(CampaignError, match=file.name):
            read_content(file)


@pytest.mark.parametrize("file", FILES, ids=lambda file: str(file.stem))
def test_each_campaign_of_the_repository_is_one(file: Path) -> None:
    campaign = campaign_of(read_content(file), file.stem)
    assert len(campaign) > 0 and campaign.figures and all(one.order == "drawn" for one in campaign)
    for product in campaign.products:
        assert all((CAMPAIGNS.parent / str(program)).is_file() for program in dict(product.axes)["program"])
