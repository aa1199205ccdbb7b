"""Reads the logs of gpscover, and runs the proved program.

`open_log` gives the epochs of a log, each with its time, boxes, rows and skipped satellites.
"""

from gpscover.errors import Error, LogError, NumberError
from gpscover.log import Bound, Box, Epoch, Interval, Kept, Log, Renewal, Row, RowSum, Rules, Skip, SkipReason, Term
from gpscover.log import open_log
from gpscover.region import Region, region_of
from gpscover.runs import ProgramError, Refused, Report, Verdict
from gpscover.runs import check, guard, judge, progress_bar, retrack, solve, track
from gpscover.settings import Settings, Station
from gpscover.zones import Corners, Group, Prism, Reach, read_zones

__all__ = ["Error", "LogError", "NumberError", "ProgramError", "Refused"]
__all__ += ["Bound", "Box", "Epoch", "Interval", "Kept", "Log", "Renewal", "Row", "RowSum", "Rules"]
__all__ += ["Skip", "SkipReason", "Term", "open_log"]
__all__ += ["Corners", "Group", "Prism", "Reach", "read_zones", "Region", "region_of", "Settings", "Station"]
__all__ += ["Report", "Verdict", "check", "guard", "judge", "progress_bar", "retrack", "solve", "track"]
