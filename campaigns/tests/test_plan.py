"""How a campaign is fixed in its folder, and cut into batches."""
from __future__ import annotations

import shutil
from pathlib import Path

import pytest

from campaign.errors import CampaignError
from campaign.images import COMPILER, image_of
from campaign.plan import FILE, TOP, read_plan, write_plan
from conftest import CONTENT, PlanMaker


def test_batches_have_each_run_once(plan: PlanMaker) -> None:
    found = plan()
    assert [(batch.first, batch.last) for batch in found.batches] == [(1, 5), (6, 10), (11, 12)]
    assert len({batch.name for batch in found.batches}) == 3 and found.batch(found.batches[1].name) == found.batches[1]
    with pytest.raises(CampaignError):
        found.batch("lacking")


def test_more_seeds_leave_the_batches_that_were_full(plan: PlanMaker) -> None:
    more = plan(product={**CONTENT["product"], "seed": "1-6"})
    assert more.batches[:2] == plan().batches[:2] and more.batches[2] != plan().batches[2]


def test_other_settings_another_program_and_journals_make_other_batches(plan: PlanMaker) -> None:
    names = {plan().batches[0].name, plan(product={**CONTENT["product"], "wait": 501}).batches[0].name, plan(Path("/bin/false")).batches[0].name}
    assert len({*names, plan(journals="all").batches[0].name}) == 4


def test_figures_and_texts_leave_the_batches(plan: PlanMaker) -> None:
    assert plan(title="Another", figures=[{"name": "f", "x": "nodes", "y": "events"}], tries=1).batches == plan().batches


def test_a_plan_is_read_back_and_written_once(plan: PlanMaker) -> None:
    found = plan()
    write_plan(found)
    file = found.folder / FILE
    written = file.stat().st_mtime_ns
    assert read_plan(found.folder) == found
    write_plan(found)
    assert file.stat().st_mtime_ns == written


def test_a_folder_without_a_plan_is_named(tmp_path: Path) -> None:
    with pytest.raises(CampaignError, match="no plan"):
        read_plan(tmp_path)
    (tmp_path / FILE).write_text("{}")
    with pytest.raises(CampaignError, match="form"):
        read_plan(tmp_path)


def test_an_image_is_put_out_for_the_number_of_nodes(tmp_path: Path) -> None:
    ring = image_of(TOP / "examples/c/ring.hex", 16, tmp_path)
    assert ring == tmp_path / "ring-16.hex" and "01000593" in ring.read_text()
    count = TOP / "examples/shared/count.hex"
    assert image_of(count, 16, tmp_path) == count
    with pytest.raises(CampaignError, match="no file"):
        image_of(TOP / "examples/lacking.hex", 1, tmp_path)


@pytest.mark.skipif(shutil.which(COMPILER) is None, reason=f"{COMPILER} isn't there")
def test_a_c_program_is_compiled(tmp_path: Path) -> None:
    assert image_of(TOP / "examples/c/arrive.c", 2, tmp_path).read_bytes()[:4] == b"\x7fELF"
    broken = tmp_path / "broken.c"
    broken.write_text("int main(")
    with pytest.raises(CampaignError, match="broken.c"):
        image_of(broken, 2, tmp_path)


def test_two_programs_of_one_name_are_refused(plan: PlanMaker, tmp_path: Path) -> None:
    for name in ("one", "two"):
        (tmp_path / name).mkdir()
        shutil.copy(TOP / "examples/c/nodes", tmp_path / name)
        shutil.copy(TOP / "examples/c/ring.hex", tmp_path / name)
    with pytest.raises(CampaignError, match="one name"):
        plan(product={"program": [str(tmp_path / "one/ring.hex"), str(tmp_path / "two/ring.hex")]})
