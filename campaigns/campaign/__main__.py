"""What `campaigns/run` and the rules of the workflow call: `run ..`, and in a campaign's folder `batch NAME`, `gather`, `draw`, `page`."""
from __future__ import annotations

import signal
import sys
from pathlib import Path
from typing import List

from .batch import run_batch
from .errors import CampaignError
from .plan import read_plan


def _step(words: List[str]) -> None:
    """One step of the workflow, in the folder where it was started."""
    plan = read_plan(Path.cwd())
    if words[:1] == ["batch"] and len(words) == 2:
        run_batch(plan, plan.batch(words[1]))
    elif words == ["gather"]:
        from .gather import gather

        print(gather(plan))
    elif words == ["draw"]:
        from .figures import draw

        print(f"not drawn: {draw(plan.campaign, plan.folder)}")
    elif words == ["page"]:
        from .page import write_page

        print(write_page(plan))
    else:
        raise CampaignError(f"there is no step {' '.join(words)!r}")


def main() -> int:
    words = sys.argv[1:]
    if words[:1] == ["run"]:
        from .front import main as front

        return front(words[1:])
    # A scheduler ends a job so; the program that runs is to go with it.
    signal.signal(signal.SIGTERM, lambda *_: sys.exit(143))
    try:
        _step(words)
    except CampaignError as error:
        print(f"campaign: {error}", file=sys.stderr)
        return 1
    return 0


if __name__ == "__main__":
    sys.exit(main())
