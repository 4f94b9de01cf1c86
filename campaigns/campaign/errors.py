"""What keeps a campaign from being begun."""
from __future__ import annotations


class CampaignError(Exception):
    """The campaign's file, its programs or what it needs isn't as it has to be; the text says what, in one line."""
