"""Runs a corridor through the shared library, part after part of its demand: python3 examples/corridor.py ./libfigwimple.so [FOLDER]

The folder, examples/i210w if none is given, has cells.csv, state.csv and demand.csv as docs/RULES.md, "The text and the program", lays
them down. The status is 0 where the whole corridor was accepted, and 1 where a file was not, or could not be read."""
import ctypes, pathlib, re, sys

PART = 360  # demand rows for one call; the library takes up to 4,096
if len(sys.argv) not in (2, 3):
    sys.exit(__doc__)
folder = pathlib.Path(sys.argv[2]) if len(sys.argv) == 3 else pathlib.Path(__file__).parent / "i210w"

def read(name, fields):
    """The numbers of each record. What int() would take as well, such as a sign, a space or a leading zero, is a slip in the file."""
    try:
        records = (folder / name).read_bytes().split(b"\r\n")
    except OSError as error:
        sys.exit(str(error))
    if not records[-1]:
        records.pop()  # the last record has its end
    for place, record in enumerate(records, 1):
        numbers = record.split(b",")
        if len(numbers) != fields or not all(re.fullmatch(rb"0|[1-9][0-9]{0,9}", n) and int(n) < 2**32 for n in numbers):
            sys.exit(f"{folder / name}: record {place} is not {fields} whole numbers with commas between them and CR LF at the end")
        records[place - 1] = [int(n) for n in numbers]
    return records

def lend(records):
    numbers = [number for record in records for number in record]
    return (ctypes.c_uint32 * len(numbers))(*numbers)

def call(name, *lists):
    """The word that a function answers; each list is passed as its pointer and its length."""
    function = getattr(library, name)
    function.restype, function.argtypes = ctypes.c_uint64, [ctypes.POINTER(ctypes.c_uint32), ctypes.c_size_t] * len(lists)
    return function(*[part for lent in lists for part in (lent, len(lent))])

def count(word): return word >> 40
def number(word): return word >> 32 & 255
def place(word): return word & 0xffffffff

def say(what, word):
    print(f"{what}: " + (f"refused with number {number(word)} at place {place(word)}" if number(word) else "accepted"))

library = ctypes.CDLL(sys.argv[1])
rows = read("cells.csv", 10)
cells = len(rows)
state_length, demand_length, sheet_length = 3 * cells + 1, 2 * cells + 1, 4 * cells + 1
table = lend(rows)
word = call("figwimple_accept_table", table)
if number(word) != 1:  # without a number of cells the other files have no lengths
    states = read("state.csv", state_length)
    if len(states) != 1:
        sys.exit(f"{folder / 'state.csv'}: " + ("record 2 is one too many" if states else "record 1 is missing"))
    state = lend(states)
    word = call("figwimple_accept_state", table, state)
say("table and state", word)
if number(word) != 0:
    sys.exit(1)

rows, sheet, done = read("demand.csv", demand_length), lend([[0] * sheet_length]), 0
for start in range(0, len(rows), PART):
    word = call("figwimple_run", table, state, lend(rows[start:start + PART]), sheet)
    done += count(word)  # a run that is refused at a row has done the periods before it
    if number(word) != 0:
        break
say("the demand", word)
vehicles = sum(state[:2 * cells + 1])  # what comes after the counts and queues are modes
print(f"{done} periods; {vehicles} thousandths of a vehicle on the road and in queues")
sys.exit(0 if number(word) == 0 else 1)
