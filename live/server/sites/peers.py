"""Keep track of the other servers: which are connected, and which of them run a copy of this folder."""
from __future__ import annotations

import time
from typing import AbstractSet, Iterator, NamedTuple, Sequence, TypedDict

from ..journal.state import SITE_FORM
from ..lab.keeper import Keeper
from .message_limits import drop_oldest

ANNOUNCE_EVERY = 3.0  # seconds between two announcements
HEARD = 4 * ANNOUNCE_EVERY  # seconds without an announcement after which a server counts as gone
COPY = 10.0  # seconds for which another server must announce this site until it counts as a copy: a run before a restart does not
AHEAD = 600_000  # milliseconds that the greatest count may be ahead of the clock without a sentence
LAST_TIME = 32_503_680_000  # seconds since 1970: the year 3000


class Site(NamedTuple):
    """Another server, as it was last heard."""

    name: str
    host: str
    road: str
    form: int  # the version of its protocol
    when: float  # when it was heard last, in seconds since 1970
    since: float  # when it was heard first


HeardSite = TypedDict("HeardSite", {"site": str, "when": int})
"""The name of another site, and when it was last heard, in seconds since 1970."""
BrokerState = TypedDict("BrokerState", {
    "state": str, "unsent": int, "behind": int, "sites": Sequence[HeardSite], "told": Sequence[str], "stays": Sequence[str], "sealed": bool,
    "left_out": int})
"""The connection to the broker, in the form of news. `told` are sentences about events, `stays` those that are true at present."""


class Peers:
    """The other servers."""

    def __init__(self, keeper: Keeper, road: str, own_runs: AbstractSet[str]) -> None:
        """`road` is the name of the road for the broker; `own_runs` has all runs of this server."""
        self._keeper, self._road, self._own_runs = keeper, road, own_runs
        self.known: dict[str, Site] = {}  # by run

    def receive_announcement(self, run: str, site: Site, count: int) -> bool:
        """Handle the announcement of a server. `count` is the greatest count that it holds. Return whether the server is new."""
        if run in self._own_runs:
            return False
        before = self.known.pop(run, None)
        self.known[run] = site if before is None else site._replace(since=before.since)
        drop_oldest(self.known)
        if site.road == self._road and site.form == SITE_FORM:
            self._keeper.counter.hear(count)
        return before is None

    def forget_silent(self) -> None:
        before = time.time() - HEARD
        self.known = {run: site for run, site in self.known.items() if site.when > before}

    def others(self) -> dict[str, Site]:
        """Return the other sites with which this one exchanges operations, by name."""
        self.forget_silent()
        return {site.name: site for site in self.known.values() if site.road == self._road and site.form == SITE_FORM
                and site.name != self._keeper.state.site}

    def is_connected(self, run: str) -> bool:
        """Return whether another server has announced itself a moment ago."""
        self.forget_silent()
        return run in self.known

    def has_heard(self, run: str) -> bool:
        """Return whether a run is this server's or known. (The broker's thread calls this, too.)"""
        return run in self._own_runs or run in self.known

    def describe_site(self, run: str) -> str:
        """Return a phrase that names the site of a run."""
        site = self.known.get(run)
        return "A site that has been silent for a while" if site is None else f"Site {site.name}"

    def notices(self) -> Iterator[str]:
        """Yield sentences that say what is wrong with this site's clock and with other servers."""
        ahead = self._keeper.counter.milliseconds_ahead()
        if ahead > AHEAD:
            until = time.time() + ahead / 1_000
            said = f"until {date_text(until)}" if until < LAST_TIME else "from now on"
            yield (f"The latest change is stamped ahead of this server's clock, so {said} changes that are made at the same time are "
                   "ordered by their counts alone: compare the clocks of the sites")
        for site in self.known.values():
            if site.road != self._road:
                yield f"Site {site.name} has another road (a different plan, seed or key): nothing is exchanged with it"
            elif site.form != SITE_FORM:
                older = f"site {site.name}" if site.form < SITE_FORM else "this site"
                yield f"Nothing is exchanged with site {site.name}, whose server has a different version: update {older}"
            elif site.name == self._keeper.state.site and site.when - site.since >= COPY:
                yield (f"Another server runs a copy of this folder ({site.host}): stop one of the two, and give its folder a site of its "
                       "own with live/road new-site FOLDER")


def date_text(when: float) -> str:
    """Return a time in seconds since 1970 as a date and time in UTC."""
    return time.strftime("%Y-%m-%d %H:%M UTC", time.gmtime(when))
