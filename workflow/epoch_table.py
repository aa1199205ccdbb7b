"""The table of a part: a line an epoch of a checked log, as `gpslog summary --csv` has it, and what a network knows.

piece      of a track: the number of the piece that the epoch is in. A piece begins with the part, and behind each epoch
           in which the track was lost; where the settings don't have it go on, it ends there, and so does the log.
began ..   of a track: the day and the epoch with which that piece began, which in a chain of days may be an earlier day.
           What is said of an epoch stands on what is declared of all epochs from there on.
held ..    as `gpslog summary --places --limit` has them. Without a known place how far the region reaches from its
           middle, and whether that is within the limits, alone.
certified  1 where lengths are those of certified bounds
suspects   the satellites that surely broke their bounds (`gpslog suspect log`)
"""
import csv

from gpscover.integrity import Judge
from gpscover.log import epochs
from gpscover.places import ALWAYS, Meetings
from gpscover.region import region_or_none
from gpscover.summary import COLUMNS, PLACE_COLUMNS, csv_line, mark_of, place_values
from gpscover.suspects import surely_broken

ANYWHERE = ("horizontal_reach_m", "vertical_reach_m", "available")  # are told without a known place
DIRECTED = ("azimuth_deg", "along_m", "across_m")  # of a receiver on its way
KNOWN = [name for name in PLACE_COLUMNS if name not in DIRECTED]
PIECE = ["piece", "began_day", "began_epoch"]
ROW_HEAD = ["station", "day", "part", *COLUMNS, *PIECE, *KNOWN, "certified", "suspects"]


class Piece:
    """The piece of a track that an epoch of a day is in. `began` is the day and the epoch with which the first one
    began, where the part before hands it on."""

    def __init__(self, day, began=None):
        self.day, self.number, self.began = day, 1, began

    def values(self, epoch, is_lost):
        """The values of an epoch in the order of PIECE. Behind a lost one another piece begins."""
        self.began = self.began or (self.day, epoch.index)
        found = [self.number, *self.began]
        if is_lost:
            self.number, self.began = self.number + 1, None
        return found


def handed_on(path):
    """What a part hands on, by its table: the day and the epoch with which the piece of its last paved epoch began, or
    None where that epoch keeps no box, or none is paved."""
    with open(path, encoding="utf-8", newline="") as file:
        paved = [row for row in csv.DictReader(file) if row["mark"] != "few"]
    if not paved or paved[-1]["mark"] == "lost":
        return None
    return paved[-1]["began_day"], int(paved[-1]["began_epoch"])


def known_values(epoch, region, place, limits):
    """The values of an epoch in the order of KNOWN: empty where there is none. The place is in m, or None."""
    if region is None:
        return [""] * len(KNOWN)
    judge = Judge(Meetings(None, [(ALWAYS, place or region.middle())]), limits=limits)
    values = dict(zip(PLACE_COLUMNS, place_values(judge, region, judge.add(epoch, region))))
    return [values[name] if place or name in ANYWHERE else "" for name in KNOWN]


def epoch_lines(path, piece, place, limits, search=None):
    """The values of each epoch of a log, in the order of ROW_HEAD from the epoch on. `piece` is the first one of a
    track, or None; `search` the search box in um where the log may begin in a smaller one."""
    for epoch in epochs(path, search):
        region = region_or_none(epoch)
        mark = mark_of(epoch, region)
        is_lost = piece is not None and mark in ("empty", "lost")
        values = csv_line(epoch, region, "lost" if is_lost else mark)
        values += piece.values(epoch, is_lost) if piece else [""] * len(PIECE)
        values += known_values(epoch, region, place, limits)
        broken = surely_broken(epoch) if epoch.kept and epoch.outliers else []
        yield values + ["" if region is None else int(region.certified), " ".join(broken)]
