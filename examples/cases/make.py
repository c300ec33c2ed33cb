#!/usr/bin/env python3
"""Writes the folders of cases beside this file, and README.md with their table.

    python3 make.py ../../peer/target/release/simulate

Each case names what it shows, its three texts (None: no such file; FOLDER: a folder of that name) and the lines expected after the header, which were
worked out by hand from the rules. The program named as the argument, the independent implementation in plain Rust, is run
on each folder, and its output becomes sheet.csv, provided that it is the expected lines. Two sheets are too long to be
worked out by hand, those with LONG: of one the last line alone is compared, of the other none."""

import pathlib
import subprocess
import sys

HERE = pathlib.Path(__file__).resolve().parent
END = "\r\n"
HEADER = "k,i,n,f,s,r,mode"
LONG = ["..."]
FOLDER = object()


def text(*records):
    return "".join(record + END for record in records)


def stop(period, place, number, file=0):
    return [f"{period},{place},{number},{file},0,0,2"]


# The road of two cells whose first period the rules print, and its next period without demand.
ROW = "32768,16384,2000,10000,0,0,0,0,0,2000"
CELLS = text(ROW, ROW)
STATE = text("500,8000,4000,0,0,0,0")
FIRST = "300,0,0,0,0"
NONE = "0,0,0,0,0"
DEMAND = text(FIRST)
ONE = ["1,0,300,500,0,0,0", "1,1,7000,1500,0,0,1", "1,2,3500,2000,0,0,1"]
TWO = ["2,0,0,300,0,0,0", "2,1,5675,1625,0,0,1", "2,2,3375,1750,0,0,0"]

# One cell, 1,000 in it and half of it on its way: an off-ramp with a split of a quarter, or a given flow.
SPLIT = "32768,16384,1000000,10000,0,0,0,7,16384,1000000"
SPLIT_100 = "32768,16384,100,10000,0,0,0,7,16384,100"
GIVEN = "32768,16384,1000000,10000,0,0,0,7,0,1000000"
# One cell whose room is shared whole between the road (three quarters) and its on-ramp.
RAMP = "1,49152,1,10000,5,16384,1000000,0,0,1"
SMALL = "1,1,1,1,0,0,0,0,0,1"
# One cell that passes 5 % less behind a queue.
DROP = "32768,32768,2000,10000,0,0,0,0,0,1900"


def demand_of(second, lines):
    """A second record of the demand, as it stands in the file, after a first that has its period."""
    return CELLS, STATE, text(FIRST) + second, ONE + lines


def long_record(length):
    """A record of small numbers, with so many bytes before its end."""
    record = "0," * ((length - 1) // 2) + ("0" if length % 2 else "10")
    assert len(record) == length
    return record


def long_state(length):
    """A state of 512 cells whose record has so many bytes before its end: fields of ten digits first, then of nine."""
    fields = 3 * 512 + 1
    of_ten_digits = length - (fields - 1) - 9 * fields
    record = ",".join(["1000000001"] * of_ten_digits + ["100000000"] * (fields - of_ten_digits))
    assert len(record) == length
    return record


def morning():
    """Twelve cells, a bottleneck in the eleventh, on-ramps, splits and a given off-ramp flow. Demand rises for 100 periods,
    stays for 80 and falls for 60; the queues then take some 100 to go. The sheet is longer than the program's buffer."""
    rows = []
    for cell in range(1, 13):
        capacity = 16000 if cell == 11 else 22000
        on = {2: "2,8000,5000", 5: "5,6000,4000", 8: "8,9000,3000"}.get(cell, "0,0,0")
        off = {4: "104,6554", 7: "107,0", 12: "112,13107"}.get(cell, "0,0")
        rows.append(f"32768,5200,{capacity},320000,{on},{off},{capacity}")
    demand = []
    for k in range(1, 401):
        level = max(0, min(k, 100, (240 - k) * 5 // 3))
        ons, offs = [0] * 12, [0] * 12
        ons[1], ons[4], ons[7] = 500 + 40 * level, 400 + 25 * level, 300 + 32 * level
        offs[6] = 700 + 5 * level + 37 * (k % 5)
        demand.append(",".join(map(str, [3000 + 175 * level] + ons + offs)))
    return text(*rows), text("0" + ",6000" * 12 + ",0" * 24), text(*demand)


def long_demand():
    """Twenty full cells, each with the longest demand at its on-ramp: 65,772 bytes in 324 records, more than the program reads at once.
    Its first read ends within the last record but one."""
    row = ",".join(["0"] + ["1000000"] * 20 + ["0"] * 20)
    cells = text(*[f"1,1,1,1,{cell},1,1,0,0,1" for cell in range(1, 21)])
    lines = [f"{k},{cell},{min(cell, 1)},0,0,0,{int(0 < cell < 20)}" for k in range(1, 325) for cell in range(21)]
    return cells, text("0" + ",1" * 20 + ",0" * 40), text(*[row] * 324), lines


CASES = [
    ("printed_period", "the period that the rules print", CELLS, STATE, DEMAND, ONE),
    ("two_periods", "a second period starts from what the first left", CELLS, STATE, text(FIRST, NONE), ONE + TWO),
    ("cells_no_last_end", "the last end of a record is optional", CELLS[:-2], STATE, DEMAND, ONE),
    ("state_no_last_end", "the last end of a record is optional", CELLS, STATE[:-2], DEMAND, ONE),
    ("demand_no_last_end", "the last end of a record is optional", CELLS, STATE, text(FIRST, NONE)[:-2], ONE + TWO),
    ("demand_empty", "no demand: the header alone", CELLS, STATE, "", []),
    ("split", "a split takes its part of what leaves", text(SPLIT), text("0,1000,0,0"), text("0,0,0"),
     ["1,0,0,0,0,0,0", "1,1,500,375,125,0,0"]),
    ("split_congested", "the split of the capacity, rounded down", text(SPLIT_100), text("0,1000,0,0"), text("0,0,0"),
     ["1,0,0,0,0,0,0", "1,1,867,100,33,0,1"]),
    ("split_next_cell_full", "the split of what really left, not of what would",
     text(SPLIT, "1,65536,1,1000,0,0,0,0,0,1"), text("0,1000,900,0,0,0,0"), text(NONE),
     ["1,0,0,0,0,0,0", "1,1,867,100,33,0,1", "1,2,1000,0,0,0,0"]),
    ("given_off_flow", "a given off-ramp flow takes what there is", text(GIVEN), text("0,1000,0,0"), text("0,0,700"),
     ["1,0,0,0,0,0,0", "1,1,500,0,500,0,0"]),
    ("full_cell", "entry and on-ramp fill a cell exactly; w + x is 65,536", text(RAMP), text("0,9000,2000,0"),
     text("5000,0,0"), ["1,0,4250,750,0,0,0", "1,1,10000,0,0,250,0"]),
    ("small_count_stays", "v 65,535 moves nothing of a count of 1", text("65535,1,1,1,0,0,0,0,0,1"), text("0,1,0,0"),
     text("0,0,0", "0,0,0"), ["1,0,0,0,0,0,0", "1,1,1,0,0,0,0", "2,0,0,0,0,0,0", "2,1,1,0,0,0,0"]),
    ("v_65536", "v 65,536 is accepted; a tie is mode 1", text("65536,1,1,1,0,0,0,0,0,1"), text("0,1,0,0"), text("0,0,0"),
     ["1,0,0,0,0,0,0", "1,1,0,1,0,0,1"]),
    ("largest_demands", "demands of 1,000,000 and a queue of 1,000,000,000 are accepted",
     text(RAMP), text("999000000,9000,999000000,0"), text("1000000,1000000,0"),
     ["1,0,999999250,750,0,0,0", "1,1,10000,0,0,250,0"]),
    ("drop", "after a congested period the dropped capacity holds, and F again after a free one", text(DROP), text("0,8000,0,0"),
     text("0,0,0", "0,0,0", "0,0,0", "0,0,0", "3350,0,0", "0,0,0"),
     ["1,0,0,0,0,0,0", "1,1,6000,2000,0,0,1", "2,0,0,0,0,0,0", "2,1,4100,1900,0,0,1", "3,0,0,0,0,0,0", "3,1,2200,1900,0,0,1",
      "4,0,0,0,0,0,0", "4,1,1100,1100,0,0,0", "5,0,0,3350,0,0,0", "5,1,3900,550,0,0,0", "6,0,0,0,0,0,0", "6,1,1950,1950,0,0,0"]),
    ("drop_by_mode_before", "two cells of M 1,950, below F and not below the dropped capacity: each goes by its mode before",
     text(DROP, DROP), text("0,3900,3900,0,0,0,1"), text(NONE),
     ["1,0,0,0,0,0,0", "1,1,1950,1950,0,0,0", "1,2,3950,1900,0,0,1"]),
    ("planner_cell", "the planner's cell, whose second period passes the dropped capacity",
     text("23665,5461,22222,360000,7,1365,2500,8,8192,21111"), text("5000,100000,2000,0"), text("16666,1666,0", "16666,1666,0"),
     ["1,0,1,21665,0,0,0", "1,1,98769,22222,3174,2500,1", "2,0,0,16667,0,0,0", "2,1,93810,21111,3015,2500,1"]),
    ("cells_512", "512 cells", text(*[SMALL] * 512), text("0" + ",0" * 1536), text("1" + ",0" * 1024),
     LONG + ["1,512,0,0,0,0,0"]),
    ("morning", "400 periods: queues as far as the entry and an on-ramp, and all of it clears", *morning(), LONG),

    ("cells_missing", "a missing file is 12 at place 0", None, STATE, DEMAND, stop(0, 0, 12, 1)),
    ("cells_a_folder", "a file that can't be read is 12 at place 0", FOLDER, STATE, DEMAND, stop(0, 0, 12, 1)),
    ("cells_empty", "no record: 1 on N, before the missing state", "", None, None, stop(0, 0, 1)),
    ("cells_513", "513 records: 1 on N, before the state's 12", text(*[SMALL] * 513), "x", DEMAND, stop(0, 0, 1)),
    ("cells_broken_514", "the cells are read to their end: 12 at a record that is one too many",
     text(*[SMALL] * 513, "1,1,1,1,0,0,0,0,0,x"), STATE, DEMAND, stop(0, 514, 12, 1)),
    ("cells_header", "no header is read", text("v,w,F,J,on,x,c,off,b,dropped", ROW), STATE, DEMAND, stop(0, 1, 12, 1)),
    ("cells_nine_fields", "a wrong number of fields", text(ROW, ROW[:-5]), STATE, DEMAND, stop(0, 2, 12, 1)),
    ("cells_eleven_fields", "a wrong number of fields, before 2 in the record before", text("0" + ROW[5:], ROW + ",0"),
     None, DEMAND, stop(0, 2, 12, 1)),
    ("cells_empty_record", "an empty record is a record", CELLS + END, STATE, DEMAND, stop(0, 3, 12, 1)),
    ("cells_bare_cr", "CR at the end of the file is half an end", CELLS[:-1], STATE, DEMAND, stop(0, 2, 12, 1)),

    ("state_missing", "a missing file is 12 at place 0", CELLS, None, DEMAND, stop(0, 0, 12, 2)),
    ("state_a_folder", "a file that can't be read is 12 at place 0", CELLS, FOLDER, DEMAND, stop(0, 0, 12, 2)),
    ("state_empty", "the one record is missing: the record it would be", CELLS, "", DEMAND, stop(0, 1, 12, 2)),
    ("state_sign", "a broken record", CELLS, text("+500,8000,4000,0,0,0,0"), DEMAND, stop(0, 1, 12, 2)),
    ("state_short", "a wrong number of fields", CELLS, text("500,8000,4000,0,0,0"), DEMAND, stop(0, 1, 12, 2)),
    ("state_long", "a wrong number of fields", CELLS, text("500,8000,4000,0,0,0,0,0"), DEMAND, stop(0, 1, 12, 2)),
    ("state_without_modes", "a wrong number of fields: a state has more of them than a demand", CELLS, text("500,8000,4000,0,0"), DEMAND,
     stop(0, 1, 12, 2)),
    ("state_16384_bytes", "5: the longest record, whose numbers are too large for any road", text(*[SMALL] * 512), text(long_state(16384)), "",
     stop(0, 0, 5)),
    ("state_16385_bytes", "the right number of fields, and a byte more than the longest record", text(*[SMALL] * 512),
     text(long_state(16385)), "", stop(0, 1, 12, 2)),
    ("state_bare_lf", "a record ends with CR LF", CELLS, STATE[:-2] + "\n", DEMAND, stop(0, 1, 12, 2)),
    ("state_second_record", "a record after the one", CELLS, STATE * 2, DEMAND, stop(0, 2, 12, 2)),
    ("state_empty_second", "an empty record after the one", CELLS, STATE + END, DEMAND, stop(0, 2, 12, 2)),
    ("state_something_after", "anything after the one record", CELLS, STATE + "\0", DEMAND, stop(0, 2, 12, 2)),
    ("state_12_before_2", "12 for the state before 2 for the cells", text(ROW, "0" + ROW[5:]), text("1,2,3"), DEMAND,
     stop(0, 1, 12, 2)),

    ("v_65537", "2: v over its range", text(ROW, "65537" + ROW[5:]), STATE, DEMAND, stop(0, 2, 2)),
    ("largest_number", "2: 4,294,967,295 is a number, and no split", text(ROW, ROW[:-8] + "7,4294967295,2000"), STATE, DEMAND,
     stop(0, 2, 2)),
    ("x_without_ramp", "2: without an on-ramp x is 0", text("1,1,1,1,0,1,0,0,0,1"), text("0,0,0,0"), "", stop(0, 1, 2)),
    ("dropped_over_f", "2: a dropped capacity over F", text(ROW, ROW[:-4] + "2001"), STATE, DEMAND, stop(0, 2, 2)),
    ("dropped_0", "2: a dropped capacity of 0", text(ROW, ROW[:-4] + "0"), STATE, DEMAND, stop(0, 2, 2)),
    ("2_before_demand", "2 before a missing demand", text("0" + SMALL[1:]), text("0,0,0,0"), None, stop(0, 1, 2)),
    ("w_and_x_65537", "3: w + x over ONE", text("1,49153" + RAMP[7:]), text("0,0,0,0"), "", stop(0, 1, 3)),
    ("2_before_3", "the lowest number, though in a later cell", text("1,49153" + RAMP[7:], "0" + SMALL[1:]),
     text("0,0,0,0,0,0,0"), "", stop(0, 2, 2)),
    ("ramp_again", "4: an off-ramp with an on-ramp's number, at the later cell",
     text(RAMP, SMALL, "1,1,1,1,0,0,0,5,0,1"), text("0,0,0,0,0,0,0,0,0,0"), "", stop(0, 3, 4)),
    ("ramp_again_in_a_cell", "4: on-ramp and off-ramp of one cell", text("1,1,1,1,5,1,1,5,0,1"), text("0,0,0,0"), "",
     stop(0, 1, 4)),
    ("4_before_5", "4 in the cells before 5 in the state", text(RAMP, RAMP), text("1000000001,0,0,0,0,0,0"), "", stop(0, 2, 4)),
    ("entry_queue_too_long", "5: the place of Q is 0", CELLS, text("1000000001,8000,10001,0,0,0,0"), DEMAND, stop(0, 0, 5)),
    ("count_over_jam", "5: a count over J", CELLS, text("500,8000,10001,0,0,0,0"), DEMAND, stop(0, 2, 5)),
    ("queue_without_ramp", "5: a queue where there is no on-ramp, before a missing demand", CELLS,
     text("500,8000,4000,1,0,0,0"), None, stop(0, 1, 5)),
    ("mode_2", "5: a mode is 0 or 1", CELLS, text("500,8000,4000,0,0,1,2"), DEMAND, stop(0, 2, 5)),

    ("demand_missing", "a missing file is 12 at place 0, in period 0", CELLS, STATE, None, stop(0, 0, 12, 3)),
    ("demand_a_folder", "a demand that can't be read: 12 at place 0, with the period that was tried", CELLS, STATE, FOLDER,
     stop(1, 0, 12, 3)),
    ("demand_longer_than_a_read", "a record that one read begins and the next ends", *long_demand()),
    ("demand_broken_third", "12 after two periods", CELLS, STATE, text(FIRST, NONE, "0,0,0,0,x"),
     ONE + TWO + stop(3, 3, 12, 3)),
    ("demand_first_record", "12 in the first period", CELLS, STATE, text("k", FIRST), stop(1, 1, 12, 3)),
    ("demand_short", "a wrong number of fields", *demand_of(text("0,0,0,0"), stop(2, 2, 12, 3))),
    ("demand_long", "a wrong number of fields", *demand_of(text("0,0,0,0,0,0"), stop(2, 2, 12, 3))),
    ("demand_cut_short", "the file ends after a comma", *demand_of("0,0,0,0,", stop(2, 2, 12, 3))),
    ("demand_leading_zero", "no leading zero", *demand_of(text("0,00,0,0,0"), stop(2, 2, 12, 3))),
    ("demand_4294967295", "the largest number is read, and is 6", *demand_of(text("4294967295,0,0,0,0"), stop(2, 0, 6))),
    ("demand_4294967296", "a number over the largest is 12", *demand_of(text("4294967296,0,0,0,0"), stop(2, 2, 12, 3))),
    ("demand_11_digits", "a field of eleven digits", *demand_of(text("10000000000,0,0,0,0"), stop(2, 2, 12, 3))),
    ("demand_bare_lf", "LF alone is no end", *demand_of(NONE + "\n" + NONE + END, stop(2, 2, 12, 3))),
    ("demand_bare_cr", "CR alone is no end", *demand_of(NONE + "\r" + NONE + END, stop(2, 2, 12, 3))),
    ("demand_bare_cr_last", "CR at the end of the file is half an end", *demand_of(NONE + "\r", stop(2, 2, 12, 3))),
    ("demand_empty_field", "an empty field", *demand_of(text("0,,0,0,0"), stop(2, 2, 12, 3))),
    ("demand_empty_record", "an empty record", *demand_of(END + text(NONE), stop(2, 2, 12, 3))),
    ("demand_quotes", "no quotes", *demand_of(text('"0",0,0,0,0'), stop(2, 2, 12, 3))),
    ("demand_sign", "no sign", *demand_of(text("0,0,0,0,-0"), stop(2, 2, 12, 3))),
    ("demand_space", "no space", *demand_of(text("0, 0,0,0,0"), stop(2, 2, 12, 3))),
    ("demand_16384_bytes", "the longest record, which no road has fields for", *demand_of(text(long_record(16384)), stop(2, 2, 12, 3))),
    ("demand_16385_bytes", "a byte more than the longest record", *demand_of(text(long_record(16385)), stop(2, 2, 12, 3))),

    ("6_in_period_1", "6: the entry's place is 0", CELLS, STATE, text("1000001,0,0,0,0"), stop(1, 0, 6)),
    ("6_in_period_3", "6 after 1,000,000 was accepted", CELLS, STATE,
     text(FIRST, "1000000,0,0,0,0", "1000001,0,0,0,0"),
     ONE + ["2,0,999550,750,0,0,0", "2,1,6125,1625,0,0,1", "2,2,3375,1750,0,0,0"] + stop(3, 0, 6)),
    ("6_without_on_ramp", "6: d where there is no on-ramp", *demand_of(text("0,0,1,0,0"), stop(2, 2, 6))),
    ("6_without_off_ramp", "6: o where there is no off-ramp", *demand_of(text("0,0,0,1,0"), stop(2, 1, 6))),
    ("6_at_a_split", "6: o at an off-ramp with a split", text(SPLIT), text("0,1000,0,0"), text("0,0,0", "0,0,1"),
     ["1,0,0,0,0,0,0", "1,1,500,375,125,0,0"] + stop(2, 1, 6)),
    ("7_at_the_entry", "7: Q and its demand over 1,000,000,000", CELLS, text("1000000000,0,0,0,0,0,0"),
     text(NONE, "2501,0,0,0,0"),
     ["1,0,999997500,2500,0,0,0", "1,1,2500,0,0,0,0", "1,2,0,0,0,0,0"] + stop(2, 0, 7)),
    ("7_at_an_on_ramp", "7: q and its demand over 1,000,000,000, after a sum of exactly that", text(RAMP),
     text("0,9000,1000000000,0"), text("0,0,0", "0,250,0", "0,188,0"),
     ["1,0,0,0,0,0,0", "1,1,9250,0,0,250,0", "2,0,0,0,0,0,0", "2,1,9437,0,0,187,0"] + stop(3, 1, 7)),
    ("6_before_7", "6 in a later cell before 7 at the entry", CELLS, text("1000000000,0,0,0,0,0,0"), text("1,0,1,0,0"),
     stop(1, 2, 6)),
    ("12_before_6", "12 for a record before 6 for a number in it", *demand_of(text("1000001,0,0,0,x"), stop(2, 2, 12, 3))),
]

README = """# Cases of the run program

A folder for each case: `cells.csv`, `state.csv` and `demand.csv`, one of them left out where the case is a missing file, or a
folder where it is a file that can't be read, and `sheet.csv`, what the program must write, byte for byte. `.ci/cases` runs the
proved program on each. `make.py` makes the folders and this table: its expected lines were worked out by hand from the rules (but
for `morning` and `cells_512`), and the sheets are the output of the independent implementation in `peer/simulate`, which has to
have those lines.

No road has a record of 16,384 bytes that is accepted. Of 512 cells the largest accepted state, 1,537 fields, has 10,762 bytes, and
the largest accepted demand, 1,025 fields, 8,199. Of the cases of that length the demand is refused for its number of fields, and
the state for its numbers.

| case | what it shows | last line |
|---|---|---|
"""


def main():
    peer = pathlib.Path(sys.argv[1]).resolve()
    table = []
    for name, shows, *texts, lines in CASES:
        folder = HERE / name
        folder.mkdir(exist_ok=True)
        for file, content in zip(("cells.csv", "state.csv", "demand.csv"), texts):
            if content is FOLDER:
                (folder / file).mkdir(exist_ok=True)
                (folder / file / "kept").write_bytes(b"")
            else:
                (folder / file).unlink(missing_ok=True)
                if content is not None:
                    (folder / file).write_bytes(content.encode())
        sheet = subprocess.run([peer], cwd=folder, stdout=subprocess.PIPE, check=True).stdout
        wrote = sheet.decode().split(END)
        if lines[:1] == LONG:
            last = lines[1:] + [""]
            assert wrote[0] == HEADER and wrote[-len(last):] == last, name
        else:
            assert wrote == [HEADER] + lines + [""], (name, wrote)
        (folder / "sheet.csv").write_bytes(sheet)
        table.append(f"| `{name}` | {shows} | `{wrote[-2]}` |\n")
    found = {path.name for path in HERE.iterdir() if path.is_dir()}
    assert found == {case[0] for case in CASES}, "a folder that is not made here, or a name that is used twice"
    assert len(found) == len(CASES)
    (HERE / "README.md").write_text(README + "".join(table))


main()
