"""The workers, as a client has them: which folder is asked on which, and what is done where one dies."""
from __future__ import annotations

import contextlib
import hashlib
import time
from collections.abc import Callable, Mapping
from concurrent.futures import CancelledError
from typing import TYPE_CHECKING, Any

from ..errors import Error
from .errors import WorkerLost
from .keeper import Keeper
from .layout import Layout, Place
from .state import Known

if TYPE_CHECKING:
    from distributed import Client

# seconds between two looks at the workers; for how long there may be none; how often a folder is tried
# (_NEWS is how old what is known of the workers may be)
_LOOK, _NEWS = 1.0, 10.0
_ALONE = 60.0
_TRIES = 5
Words = tuple[Any, ...]


class _Gone(Exception):
    """A worker isn't there any more."""


def known(layout: Layout, place: Place, is_exact: bool = False) -> Known:
    """What a layout knows of a place."""
    return Known(layout.name, place.name, place.order, place.mark, is_exact)


class Crew:
    """The workers of a Dask client, each with a `Keeper`. Folders that aren't bound go round all workers in turn."""

    def __init__(self, client: Client, program: Any, workers: Mapping[str, str]) -> None:
        self._client = client
        self._program = program
        self._bound = dict(workers)
        self._keepers: dict[str, Any] = {}
        self._names: dict[str, str] = {}
        self._looked = 0.0

    # ---- workers

    def _look(self) -> None:
        """Looks which workers there are, and forgets those that went."""
        self._looked = time.monotonic()
        found = self._client.scheduler_info()["workers"]
        self._names = {address: str(told.get("name")) for address, told in found.items()}
        self._keepers = {address: one for address, one in self._keepers.items() if address in found}

    def worker_of(self, place: Place, at: int) -> str:
        """The address of the worker that a place is asked on. Raises `WorkerLost` where there is none for a minute, or
        the one that it is bound to isn't there."""
        until = time.monotonic() + _ALONE
        bound = self._bound.get(place.folder, place.worker)
        while not self._names:
            if time.monotonic() > until:
                raise WorkerLost(place.folder, f"there was no worker for {_ALONE:.0f} seconds")
            self._look()
            time.sleep(0 if self._names else _LOOK / 10)
        addresses = sorted(self._names)
        if bound is None:
            return addresses[at % len(addresses)]
        found = [address for address in addresses if bound in (address, self._names[address])]
        if found:
            return found[0]
        self._names = {}  # it may come again
        raise WorkerLost(place.folder, f"worker {bound}, which has it, isn't there")

    def _keeper(self, address: str) -> Any:
        """The worker's keeper, which all clients of a scheduler share."""
        if address not in self._keepers:
            key = f"bkd-{address}-{hashlib.sha256(repr(self._program).encode()).hexdigest()[:16]}"
            made = self._client.submit(Keeper, self._program, actor=True, key=key, workers=[address],
                                       allow_other_workers=False)
            keeper = self._result(made, address)
            # (else it is called by way of the newest client that this process has, and not after that one's end)
            keeper._client, keeper._future = self._client, made
            self._keepers[address] = keeper
        return self._keepers[address]

    def _result(self, future: Any, address: str) -> Any:
        """What a future or a call of a keeper answers. Raises `_Gone` where the worker is no more."""
        was_done = False
        while True:
            try:
                return future.result(timeout=_LOOK)
            except TimeoutError as error:  # of the waiting, or of what was done
                self._look()
                if address not in self._names or was_done:
                    raise _Gone(f"worker {address} died") from error
                was_done = future.done()
            except Error:
                raise
            except (OSError, ValueError, CancelledError) as error:
                raise _Gone(f"worker {address} died: {error}") from error

    # ---- work

    def call(self, place: Place, at: int, method: str, *words: Any) -> Any:
        """Calls a method of the keeper of a place's worker, on another one where it dies; answers what it answers, or
        raises what it raised."""
        for _ in range(_TRIES):
            address = self.worker_of(place, at)
            try:
                told = self._result(getattr(self._keeper(address), method)(*words), address)
            except _Gone:
                self._wait_for_change()
                continue
            if isinstance(told, BaseException):
                raise told
            return told
        raise WorkerLost(place.folder, "workers died again and again")

    def each(self, method: str, layout: Layout, asked: Mapping[int, Words], is_exact: bool = False,
             failed: dict[int, BaseException] | None = None) -> dict[int, Any]:
        """Calls a method of `Shard` on places, in one message a worker, and answers what each answers.

        Where a worker dies its places are asked on another; every method may be tried again. What goes wrong is raised,
        or put in `failed` where that is given.
        """
        found: dict[int, Any] = {}
        wrong: dict[int, BaseException] = {} if failed is None else failed
        left = dict(asked)
        if time.monotonic() > self._looked + _NEWS:
            self._look()
        for _ in range(_TRIES):
            if not left:
                break
            left = self._round(method, layout, left, is_exact, found, wrong)
        for place in left:
            wrong[place] = WorkerLost(layout.places[place].folder, "workers died again and again")
        if wrong and failed is None:
            raise wrong[min(wrong)]
        return found

    def _round(self, method: str, layout: Layout, asked: Mapping[int, Words], is_exact: bool, found: dict[int, Any],
               wrong: dict[int, BaseException]) -> dict[int, Words]:
        """Asks each worker once; answers what its worker died of."""
        left: dict[int, Words] = {}
        waited: list[tuple[str, list[int], Callable[[], Any]]] = []
        for address, places in self._shared_out(layout, asked, wrong).items():
            words = {place: (layout.places[place].folder, known(layout, layout.places[place], is_exact), asked[place])
                     for place in places}
            try:
                call = self._keeper(address).do(method, words)
                waited.append((address, places, call))
            except (_Gone, ValueError):
                left |= {place: asked[place] for place in places}
        for address, places, call in waited:
            try:
                told = self._result(call, address)
            except _Gone:
                left |= {place: asked[place] for place in places}
                continue
            wrong |= {place: value for place, value in told.items() if isinstance(value, BaseException)}
            found |= {place: value for place, value in told.items() if place not in wrong}
        if left:
            self._wait_for_change()
        return left

    def _shared_out(self, layout: Layout, asked: Mapping[int, Words],
                    wrong: dict[int, BaseException]) -> dict[str, list[int]]:
        """The places by the worker that they are asked on."""
        shares: dict[str, list[int]] = {}
        for place in asked:
            try:
                shares.setdefault(self.worker_of(layout.places[place], place), []).append(place)
            except WorkerLost as error:
                wrong[place] = error
        return shares

    def _wait_for_change(self) -> None:
        """Looks for the workers again, when the scheduler has had time to see that one went."""
        self._keepers.clear()
        time.sleep(_LOOK / 4)
        with contextlib.suppress(OSError):
            self._look()
