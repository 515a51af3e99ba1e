"""Budget and zones on a listing's page."""
from __future__ import annotations

from functools import partial

import numpy as np

from . import curves
from .look_time import OverTime
from .looking import BUDGET, ZONES
from ..listing.tables import budget_of
from ..common.text import Problem, down, signed_down, signed_up, up, without_exponent
from ..listing.zones import net_flows
from .zones import ZoneMap, zone_map


def span(low: int, high: int, places: int) -> str:
    """Both bounds in one cell of a table, where a narrow window breaks the line."""
    return f"{down(low, places)} to {up(high, places)}"


class Flows(OverTime):
    """The budget of the last step, its terms over time, and the flows between zones."""

    def add_budget(self) -> None:
        step, places = self.listing.steps[-1], self.listing.flow_places
        budget = budget_of(step)
        drawn = [(r[0], *(v / 10**places for v in r[1:])) for r in budget.rows if any(r[1:])]
        if drawn:
            self.jobs.append(
                partial(curves.budget_bars, self.album, "budget", drawn, self.rate, f"Budget, {self.when(step)}")
            )
            self.page.picture(
                BUDGET,
                "budget.png",
                f"Terms of {self.when(step)}: solid up to the lower flow, pale up to the upper one",
            )
        rows = [
            [r[0], span(r[1], r[2], places), span(r[3], r[4], places)]
            for r in budget.rows
            if any(r[1:]) or r[0] == "TOTAL"
        ]
        self.page.text(
            BUDGET, f"Rates in {self.rate}, {self.when(step)}; lower numbers are rounded down, upper ones up."
        )
        self.page.table(BUDGET, ["term", "in, lower to upper", "out, lower to upper"], rows)
        nets = [
            [n[0], span(n[1], n[2], places), span(n[3], n[4], places)]
            for n in budget.nets
            if any(n[1:])
        ]
        if nets:
            self.page.table(
                BUDGET,
                ["term", "net, lower to upper", "narrowed, lower to upper"],
                nets,
                "Net flows (in less out), and narrowed: exact net flows sum to 0 (net_terms_lie_in_the_others)",
            )
        if budget.is_empty:
            self.page.say(
                f"No exact solution has such a budget: {self.when(step)} has a term whose bounds and the others' "
                "share no number. No listing that `heads run` wrote or `heads check` certified is like this."
            )
        if budget.discrepancy and not self.listing.is_span:
            least, most = budget.discrepancy
            low, high = without_exponent(signed_down(least)), without_exponent(signed_up(most))
            self.page.text(
                BUDGET,
                "The percent discrepancy of the budget is 0 in each exact solution. "
                f"That of these bounds lies from {low} to {high}: it says how wide they are, not how wrong.",
            )
        if len(self.listing.steps) > 1:
            self.jobs.append(self.draw_terms)

    def draw_terms(self) -> None:
        """The net flow of each term over time."""
        label = self.times()[1]
        nets = [{n[0]: n[1:3] for n in budget_of(s).nets} for s in self.listing.steps]
        unit = 10.0**-self.listing.flow_places
        rates = lambda name, side: np.array([float(n.get(name, (0, 0))[side]) * unit for n in nets])
        names = [name for name in nets[-1] if any(any(n.get(name, ())) for n in nets)]
        lines: list[curves.Curve] = [(name.lower(), rates(name, 0), rates(name, 1)) for name in names]
        if lines:
            words = label, f"in less out, {self.rate}", "Terms of the budget over time"
            curves.bands(self.album, "terms", self.step_edges(), lines, *words, is_rate=True)
            self.page.picture(
                BUDGET,
                "terms.png",
                "Net flow of each term, which is the same from a step's begin to its end: above 0 it brings water, "
                "below 0 it takes water",
            )

    def add_zones(self, zones: np.ndarray | None) -> None:
        step, places = self.listing.steps[-1], self.listing.flow_places
        if not step.zones:
            if zones is not None:
                raise Problem(f"{self.listing.path} has no flows between zones: run with --zones")
            return
        if zones is not None:
            for k in range(self.shape[0]):
                active = np.isfinite(self.listing.grid(step.low * 1.0, self.shape)[k])
                if (zones[k][active] > 0).any():
                    name, title = f"zones_layer{k + 1}", f"Zones of layer {k + 1}, {self.when(step)}"
                    self.jobs.append(
                        partial(
                            zone_map,
                            self.album,
                            name,
                            self.plan,
                            ZoneMap(k + 1, zones[k], active, step, places, self.rate, title),
                        )
                    )
                    self.page.picture(
                        ZONES,
                        f"{name}.png",
                        f"{title}, with the net flow into each zone from all other zones",
                        title if k else "",
                    )
        nets = [[str(z), down(low, places), up(high, places)] for z, (low, high) in sorted(net_flows(step).items())]
        self.page.text(
            ZONES, f"Flows in {self.rate}, {self.when(step)}. A flow below 0 goes the other way. All steps: zones.csv."
        )
        self.page.table(ZONES, ["zone", "net flow into it, lower", "upper"], nets)
        flows = [[str(a), str(b), down(lo, places), up(hi, places)] for a, b, lo, hi in step.zones]
        self.page.table(ZONES, ["out of zone", "into zone", "flow, lower", "upper"], flows)
