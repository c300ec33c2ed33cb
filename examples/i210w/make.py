#!/usr/bin/env python3
"""Makes the example corridor: cells.csv, state.csv and demand.csv beside this script.

A morning on a freeway in the manner of the 14-mile test segment of Interstate 210 West between Vernon and Fair Oaks, as
described by L. Munoz, X. Sun, R. Horowitz and L. Alvarez in "A piecewise-linearized cell transmission model and parameter
calibration methodology" (the project's document 002). Run it in any folder: python3 make.py

THE PAPER'S FIGURES
  41 cells; the shortest is 962 ft, the longest 4,012 ft, the mean 1,807 ft
  postmiles 39.159 (Vernon) to 25.4 (Fair Oaks), counted down along the road
  20 metered on-ramps, one freeway-to-freeway entrance without a meter, 18 off-ramps
  4 to 6 lanes
  a cell starts at an on-ramp and ends at an off-ramp
  steps of 10 seconds, 7 hours of a morning from 5:00
  capacity 2,300 vehicles per hour and lane in the five cells farthest upstream, 2,100 in the others
  bottlenecks near postmiles 33.05, 30.78, 29.88, 28.03 and 26.12, their capacity 1,488 veh/h/lane or more
  free speed 58 to 68 mph, wave speed 14 to 19 mph, jam density 143 to 188 vehicles per mile and lane
  traffic flows freely from 5:00 to 6:00, queues grow after 6:00 and are gone some time after 10:00

INVENTED
  the length of every cell but for those three figures, its lanes, and where each ramp is
  each cell's own free speed, wave speed and jam density, within the paper's ranges
  the capacity of each bottleneck, within the paper's range
  that the capacity drops behind a queue, by how much, and where
  all flows at the entry and the ramps, all splits, their course over the morning and their unevenness
  the on-ramps' limits and their share of the room
  the freely flowing traffic that the morning starts with
"""

import os

FEET = 5280
PERIOD = 10  # seconds
PERIODS = 7 * 3600 // PERIOD
ONE = 65536
FIRST_POSTMILE, LAST_POSTMILE = 39.159, 25.4

# One row for each cell along the road: length in feet, lanes, and the ramps. An on-ramp has its demand at the height of the
# morning in vehicles per hour; an off-ramp has a split in thousandths ("split") or a demand of its own in vehicles per hour
# ("given").
CELLS = [
    (1378, 5, None, None),
    (2046, 5, 420, ("split", 46)),
    (1392, 5, None, None),
    (1769, 5, 380, ("split", 38)),
    (1281, 5, None, None),
    (2305, 5, 510, ("given", 330)),
    (1341, 4, None, None),
    (2137, 4, 340, ("split", 52)),
    (1099, 5, "freeway", None),
    (2143, 6, 450, ("split", 175)),
    (1497, 5, None, None),
    (1861, 5, 390, ("split", 61)),
    (962, 4, None, None),
    (2520, 4, 360, ("split", 44)),
    (1472, 4, None, None),
    (3002, 4, 520, ("given", 410)),
    (1480, 4, None, None),
    (2269, 4, 560, None),
    (1297, 4, None, None),
    (2495, 4, 280, ("split", 57)),
    (1094, 4, None, None),
    (2605, 4, 330, ("split", 49)),
    (1421, 4, None, None),
    (2991, 5, 540, ("split", 63)),
    (1150, 4, None, None),
    (4012, 4, 310, ("given", 290)),
    (1415, 4, None, None),
    (2655, 4, 470, ("split", 58)),
    (1040, 4, None, None),
    (1641, 4, 350, ("split", 41)),
    (1467, 4, None, None),
    (1677, 5, 430, ("split", 55)),
    (1338, 5, None, None),
    (1963, 4, 300, ("split", 47)),
    (1309, 4, None, None),
    (2341, 4, 480, ("given", 420)),
    (1198, 4, None, None),
    (1875, 4, 370, ("split", 39)),
    (1372, 4, None, None),
    (2624, 5, 440, None),
    (1153, 5, None, None),
]
FREEWAY_DEMAND = 2150
ENTRY_DEMAND = 5820

# Postmile of each bottleneck and its capacity in vehicles per hour and lane.
BOTTLENECKS = [(33.05, 1820), (30.78, 1840), (29.88, 1880), (28.03, 1490), (26.12, 1780)]

# The two bottlenecks that the morning's queues stand at, cells 19 and 39: no other cell ever comes to its own capacity. Behind a
# queue they pass 5 % less; every other cell passes as much as without one.
DROPS = [33.05, 26.12]
DROP_PERCENT = 5

# The demand over the morning: hour of the day and thousandths of its height, straight between them.
COURSE = [(5.0, 430), (5.75, 700), (6.25, 950), (6.75, 1000), (8.25, 1000), (9.0, 860), (9.75, 700), (10.5, 620), (12.0, 580)]


def course(hour):
    for (from_hour, low), (to_hour, high) in zip(COURSE, COURSE[1:]):
        if hour <= to_hour:
            return (low + (high - low) * (hour - from_hour) / (to_hour - from_hour)) / 1000
    return COURSE[-1][1] / 1000


class Uneven:
    """Small steps up and down around 1, the same in every run: a linear congruential generator."""

    def __init__(self):
        self.word = 210

    def __call__(self):
        self.word = (self.word * 1103515245 + 12345) % 2**31
        return 1 + (self.word / 2**31 - 0.5) / 5


def thousandths(per_hour):
    """Vehicles per hour as whole thousandths per period."""
    return int(per_hour * PERIOD * 1000 / 3600)


def rows():
    """The cell table, with what the state and the demand need to know of each cell."""
    total = sum(cell[0] for cell in CELLS)
    postmile = FIRST_POSTMILE
    ends = []
    for length, *_ in CELLS:
        start = postmile
        postmile -= (FIRST_POSTMILE - LAST_POSTMILE) * length / total
        ends.append((start, postmile))

    table = []
    for i, ((length, lanes, on, off), (start, end)) in enumerate(zip(CELLS, ends)):
        miles = length / FEET
        speed = 60 + 3 * ((i * 7) % 5) / 4  # 60 to 63 mph: the shortest cell is longer than a period's travel
        wave = 14 + ((i * 3) % 5) / 2  # 14 to 16 mph
        jam = 160 + 3 * ((i * 5) % 4)  # 160 to 169 vehicles per mile and lane
        capacity = 2300 if i < 5 else 2100
        for place, narrow in BOTTLENECKS:
            if end < place <= start:
                capacity = narrow
        dropped = capacity
        if any(end < place <= start for place in DROPS):
            dropped = capacity * (100 - DROP_PERCENT) / 100
        v = int(speed * PERIOD / (3600 * miles) * ONE)
        w = int(wave * PERIOD / (3600 * miles) * ONE)
        on_ramp = [0, 0, 0]
        if on == "freeway":
            on_ramp = [100 + i + 1, int(0.30 * ONE), thousandths(3600)]
        elif on is not None:
            on_ramp = [100 + i + 1, int(0.12 * ONE), thousandths(900)]
        off_ramp = [0, 0]
        if off is not None:
            off_ramp = [200 + i + 1, int(off[1] * ONE / 1000) if off[0] == "split" else 0]
        capacity, dropped = thousandths(capacity * lanes), thousandths(dropped * lanes)
        table.append([v, w, capacity, int(jam * lanes * miles * 1000), *on_ramp, *off_ramp, dropped])
    return table


def flows(hour):
    """Entry demand, on-ramp demands and given off-ramp demands in vehicles per hour."""
    on, off = [], []
    for i, (_, _, on_ramp, off_ramp) in enumerate(CELLS):
        # The morning comes a little earlier upstream.
        here = course(min(12, max(5, hour - 0.004 * i)))
        height = {None: 0, "freeway": FREEWAY_DEMAND}.get(on_ramp, on_ramp)
        on.append(height * here)
        given = off_ramp[1] if off_ramp is not None and off_ramp[0] == "given" else 0
        off.append(given * here)
    return ENTRY_DEMAND * course(hour), on, off


def first_state(table):
    """Counts of freely flowing traffic at 5:00, no queue, and no cell congested before."""
    entry, on, off = flows(5.0)
    flow, counts = entry, []
    for (_, _, _, ramp), row, enter, leave in zip(CELLS, table, on, off):
        flow += enter
        counts.append(int(thousandths(flow) * ONE / row[0]))
        flow -= flow * ramp[1] / 1000 if ramp is not None and ramp[0] == "split" else leave
    queues = modes = [0] * len(CELLS)
    return [0, *counts, *queues, *modes]


def demand():
    uneven = Uneven()
    for period in range(PERIODS):
        entry, on, off = flows(5 + period * PERIOD / 3600)
        yield [thousandths(flow * uneven()) if flow else 0 for flow in (entry, *on, *off)]


def write(name, records):
    path = os.path.join(os.path.dirname(os.path.abspath(__file__)), name)
    with open(path, "w", newline="") as out:
        out.writelines(",".join(map(str, record)) + "\r\n" for record in records)


def main():
    lengths = [cell[0] for cell in CELLS]
    assert (len(CELLS), min(lengths), max(lengths), round(sum(lengths) / 41)) == (41, 962, 4012, 1807)
    assert sum(cell[2] is not None for cell in CELLS) == 21 and sum(cell[3] is not None for cell in CELLS) == 18
    table = rows()
    write("cells.csv", table)
    write("state.csv", [first_state(table)])
    write("demand.csv", demand())


if __name__ == "__main__":
    main()
