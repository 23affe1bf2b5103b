"""What folders answer to a change: noted in the layout, or raised where not all have done it."""
from __future__ import annotations

from collections.abc import Mapping
from typing import Any

from .errors import Unfinished, WorkerLost
from .layout import Layout


def take(layout: Layout, outcomes: Mapping[int, Any]) -> None:
    """Notes what folders hold."""
    for at, outcome in outcomes.items():
        place, state = layout.places[at], outcome.state
        place.order, place.mark, place.live = state.order, state.mark, state.live


def is_lost(failed: Mapping[int, BaseException]) -> bool:
    """Whether a worker was lost, so that it can't be told what its folders have done."""
    return any(isinstance(error, WorkerLost) for error in failed.values())


def unfinished(layout: Layout, name: str, places: list[int], failed: Mapping[int, BaseException]) -> Unfinished:
    """What is raised where a change isn't done in all folders."""
    committed = [layout.places[at].folder for at in places if at not in failed]
    open = [layout.places[at].folder for at in places if at in failed]
    at = next((at for at, error in failed.items() if isinstance(error, WorkerLost)), min(failed))
    told: Unfinished
    if isinstance(failed[at], WorkerLost):
        told = WorkerLost(layout.places[at].folder, str(failed[at]), name, committed, open)
    else:
        told = Unfinished(f"{type(failed[at]).__name__}: {failed[at]}", name, committed, open)
    told.__cause__ = failed[at]
    return told
