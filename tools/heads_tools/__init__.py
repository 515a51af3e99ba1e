"""Tools beside `heads`, the program of certified heads for MODFLOW-2005. Nothing in this package is proved."""
from .answers import Answer
from .calls import (
    batch,
    between,
    capture,
    certify,
    check,
    compare,
    drawdown,
    drawdown_whatever,
    ensemble,
    exhibit,
    export,
    hds,
    inside,
    look,
    observe,
    plain,
    plans,
    plot,
    run,
    template,
    zonebudget,
    zones_frame,
)
from .common.text import VERSION, Problem
from .deck.model import Model, read_model
from .deck.places import Place
from .exports.exports import heads_frame, terms_frame
from .exports.files import to_geotiff, to_vtk
from .exports.geopackage import to_geopackage
from .exports.netcdf import to_netcdf, to_xarray
from .listing.headfile import read_heads, write_heads
from .listing.listing import Listing, Step, read_listing
from .listing.plan_listing import PlanListing, read_plan_listing
from .planning.drawdown import changes_of
from .program.failures import NoBounds, RunFailed
from .program.verdict import Verdict

__version__ = VERSION
__all__ = [
    "Answer",
    "Listing",
    "Model",
    "NoBounds",
    "Place",
    "PlanListing",
    "Problem",
    "RunFailed",
    "Step",
    "Verdict",
    "batch",
    "between",
    "capture",
    "certify",
    "changes_of",
    "check",
    "compare",
    "drawdown",
    "drawdown_whatever",
    "ensemble",
    "exhibit",
    "export",
    "hds",
    "heads_frame",
    "inside",
    "look",
    "observe",
    "plain",
    "plans",
    "plot",
    "read_heads",
    "read_listing",
    "read_model",
    "read_plan_listing",
    "run",
    "template",
    "terms_frame",
    "to_geopackage",
    "to_geotiff",
    "to_netcdf",
    "to_vtk",
    "to_xarray",
    "write_heads",
    "zonebudget",
    "zones_frame",
]
