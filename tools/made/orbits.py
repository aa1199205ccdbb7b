"""Where a satellite of GPS or Galileo is and what its clock shows, by its broadcast ephemeris, in floating-point numbers.

The user algorithm is that of IS-GPS-200, section 20.3.3.3.3.1 and table 20-IV, which is that of the Galileo OS SIS ICD but
for two constants. A record of I/NAV has its group delay in another field (RINEX 3.05, table A8). Lengths are in m, times in s,
angles in rad; places are in the frame that turns with the earth.
"""
import datetime
import math

from gpscover.bounds import ionosphere_mapping, troposphere_mapping

LIGHT = 299792458.0  # m/s
TURN = 7.2921151467e-5  # of the earth, rad/s
# By the letter of the system: of the earth's mass in m^3/s^2, and of a clock on an ellipse in s/m^(1/2).
MASS = {"G": 3.986005e14, "E": 3.986004418e14}
RELATIVITY = {"G": -4.442807633e-10, "E": -4.442807309e-10}
WEEK = 604800
EPOCH = datetime.datetime(1980, 1, 6)
# What made air delays signals from overhead, in m, and the height of the ionosphere's shell in km.
TROPOSPHERE, IONOSPHERE, SHELL_KM = 2.4, 4.0, 350
INAV_CLOCK = 1 << 9  # the bit of a Galileo record's data source: a clock for E1 and E5b


def number(text):
    """A number of a navigation file."""
    return float(text.replace("D", "E")) if text.strip() else 0.0


def turned(place, seconds):
    """A place in the frame that has turned on for so long."""
    (x, y, z), sine, cosine = place, math.sin(TURN * seconds), math.cos(TURN * seconds)
    return x * cosine + y * sine, y * cosine - x * sine, z


class Record:
    """A broadcast ephemeris, of the eight lines of its record. Its times are seconds of GPS time.

    `dual` is for a user of two codes, to whom a clock shows no group delay.
    """

    def __init__(self, text, dual=False):
        first, *rest = text.splitlines()
        date = datetime.datetime(*map(int, first[4:23].split()))
        self.satellite, self.toc = first[:3], int((date - EPOCH).total_seconds())
        self.clock = [number(first[at : at + 19]) for at in (23, 42, 61)]
        lines = [[number(line[at : at + 19]) for at in (4, 23, 42, 61)] for line in rest]
        ((_, crs, motion, self.mean), (cuc, self.ratio, cus, self.root), (toe, cic, node, cis)) = lines[:3]
        ((self.tilt, crc, self.perigee, node_rate), (self.tilt_rate, source, *_), (_, health, *delays)) = lines[3:6]
        inav = text[0] == "E" and int(source) & INAV_CLOCK
        self.delay = 0 if dual else delays[bool(inav)]
        # The amounts that go with the sine and the cosine of twice the angle from the node.
        self.waves = (cus, cuc), (crs, crc), (cis, cic)
        self.axis, self.healthy = self.root**2, health == 0
        self.motion = math.sqrt(MASS[text[0]] / self.axis**3) + motion
        self.node, self.node_rate = node - TURN * toe, node_rate - TURN
        # The week of the time of ephemeris is the one that is nearest to that of the clock.
        self.toe = self.toc + (toe - self.toc + WEEK / 2) % WEEK - WEEK / 2

    def after(self, since):
        """The place so long after the time of ephemeris, and how far the clock is ahead."""
        mean = self.mean + self.motion * since
        anomaly = mean
        for _ in range(12):
            anomaly = mean + self.ratio * math.sin(anomaly)
        sine, cosine = math.sin(anomaly), math.cos(anomaly)
        angle = math.atan2(math.sqrt(1 - self.ratio**2) * sine, cosine - self.ratio) + self.perigee
        waves = math.sin(2 * angle), math.cos(2 * angle)
        along, outward, tilted = (a * waves[0] + b * waves[1] for a, b in self.waves)
        angle, radius = angle + along, self.axis * (1 - self.ratio * cosine) + outward
        tilt, node = self.tilt + tilted + self.tilt_rate * since, self.node + self.node_rate * since
        x, y = radius * math.cos(angle), radius * math.sin(angle)
        flat, z = y * math.cos(tilt), y * math.sin(tilt)
        place = (x * math.cos(node) - flat * math.sin(node), x * math.sin(node) + flat * math.cos(node), z)
        since += self.toe - self.toc
        drift = self.clock[0] + (self.clock[1] + self.clock[2] * since) * since
        return (place, drift + RELATIVITY[self.satellite[0]] * self.ratio * self.root * sine - self.delay)

    def at(self, time):
        """The same at a time of GPS."""
        return self.after(time - self.toe)


def arrival(record, place, time, off=(0.0, 0.0, 0.0)):
    """Whence a signal comes that arrives at a place and a time, in the frame of the arrival, and its pseudorange in vacuo,
    of a satellite that is so far off its ephemeris."""
    flight, there = 0.075, place
    for _ in range(4):
        sent, clock = record.at(time - flight)
        there = turned([part + more for part, more in zip(sent, off)], flight)
        flight = math.dist(there, place) / LIGHT
    return there, LIGHT * (flight - clock)


def delay(angle, ionosphere=IONOSPHERE):
    """By how many m the air delays a signal at an elevation, with so much of the ionosphere overhead."""
    return TROPOSPHERE * troposphere_mapping(angle) + ionosphere * ionosphere_mapping(angle, SHELL_KM)
