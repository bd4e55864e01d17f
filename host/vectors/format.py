"""Runs the Python text of docs/FORMAT.md over the test vectors: `python3 host/vectors/format.py`.

The check of grammars, the readings and their checks, the check of row tables, the size, the signed
number, the writers, preview, same route, the chooser, export, import and yes or no answer as each line
says. Preview also answers as each line of `marshall_val` says that writing does, and the readings, the
checks, the calls that take rows, same route, the chooser, import, the least lengths and yes or no as
each row of the page's own tables says. Prints a line for each failure, the number of lines of each call and, last,
'N passed, M failed'.
"""

import collections
import itertools
import json
import pathlib
import re
import sys

ROOT = pathlib.Path(__file__).resolve().parents[2]
page = {}
text = (ROOT / "docs/FORMAT.md").read_text()
exec("\n".join(re.findall(r"^```python\n(.*?)^```$", text, re.M | re.S)), page)
sys.setrecursionlimit(10000)
ROW_WORDS = 5


def texts(parts):
    """Each part of a slice: its text, and how often it stands there."""
    for part in parts:
        yield (part["repeat"], part["times"]) if isinstance(part, dict) else (part, 1)


def words(line, name):
    slices = ([int(word) for word in text.split()] * times for text, times in texts(line[name]))
    return list(itertools.chain.from_iterable(slices))


def data(line, name):
    return b"".join(bytes.fromhex(text) * times for text, times in texts(line[name]))


def table(line):
    """A row table as the text takes it: its words, n and the store."""
    return words(line, "rows"), int(line["n"]), data(line, "store")


# Each of these asks the text and says whether its answer is the accepted one of the line. The text
# raises a ValueError for a refusal.


def check_grammar(line):
    page["check_grammar"](words(line, "grammar"))
    return "accepted" in line


def read(line):
    index, whole = int(line.get("index", 0)), "index" not in line
    lent = words(line, "rows")
    grammar, record = words(line, "grammar"), data(line, "record")
    rows, rest_index = page["read"](grammar, record, index, len(lent) // ROW_WORDS, whole)
    filled = [word for row in rows for word in row]
    if "rows_after" in line and filled + lent[len(filled):] != words(line, "rows_after"):
        return False
    return line.get("accepted") == {"row_count": str(len(rows)), "rest_index": str(rest_index)}


def check(line):
    index, whole = int(line.get("index", 0)), "index" not in line
    named = {"capacity": int(line["capacity"])} if "capacity" in line else {}
    grammar, record = words(line, "grammar"), data(line, "record")
    n, rest_index = page["check"](grammar, record, index, whole, **named)
    return line.get("accepted") == {"row_count": str(n), "rest_index": str(rest_index)}


def compute_size_of(line):
    return line.get("accepted") == {"size": str(page["compute_size_of"](*table(line)))}


def locate_array(line):
    page["check_rows"](*table(line))
    return "accepted" in line


def signed_number(line):
    number = page["signed_number"](*table(line), int(line["row"]))
    return line.get("accepted") == {"number": str(number)}


def marshall(line):
    out, index = bytearray(data(line, "out")), int(line.get("index", 0))
    size = page["write"](words(line, "grammar"), *table(line), out, index)
    return line.get("accepted") == {"size": str(size)} and out == data(line, "out_after")


def preview(line):
    given = words(line, "grammar"), *table(line)
    out, index = data(line, "out"), int(line["index"])
    size, changed = page["preview"](*given, out, index)
    written = bytearray(out)
    page["write"](*given, written, index)
    if changed != differing(out, written):
        return False
    return line.get("accepted") == {"size": str(size), "changed": str(changed)}


def differing(before, after):
    """The number of bytes that are another one afterwards."""
    return sum(old != new for old, new in zip(before, after))


def same_route(line):
    grammar, first, second = words(line, "grammar"), data(line, "first"), data(line, "second")
    same = page["same_route"](grammar, first, second)
    return line.get("accepted") == {"same": "1" if same else "0"}


def choose_grammar(line):
    number, begun = page["choose_grammar"](words(line, "list"), data(line, "record"))
    return line.get("accepted") == {"number": str(number), "begun": str(begun)}


def export_xdr(line):
    out, index = bytearray(data(line, "out")), int(line["index"])
    size = page["export_xdr"](words(line, "grammar"), *table(line), out, index)
    return line.get("accepted") == {"size": str(size)} and out == data(line, "out_after")


def import_xdr(line):
    rows, store = words(line, "rows"), bytearray(data(line, "store"))
    n, used = page["import_xdr"](words(line, "grammar"), data(line, "record"), rows, store)
    if "rows_after" in line and rows != words(line, "rows_after"):
        return False
    if "store_after" in line and store != data(line, "store_after"):
        return False
    return line.get("accepted") == {"row_count": str(n), "used": str(used)}


def accepts(line):
    grammar, record = words(line, "grammar"), data(line, "record")
    yes, begun = page["accepts"](grammar, record)
    if yes != is_checked(grammar, record):
        return False
    return line.get("accepted") == {"yes": "1" if yes else "0", "begun": str(begun)}


def is_checked(grammar, record):
    """Whether the whole check with capacity 4,096 accepts."""
    try:
        page["check"](grammar, record, 0, True, 4096)
    except ValueError:
        return False
    return True


def least_lengths(line):
    return page["least_lengths"](words(line, "grammar")) == line["accepted"]["least"]


CALLS = {
    "check_grammar": check_grammar,
    "parse_val": read,
    "demarshall": read,
    "read on the page": read,
    "check_val": check,
    "check_whole": check,
    "check_val_with": check,
    "check_whole_with": check,
    "check on the page": check,
    "compute_size_of": compute_size_of,
    "size on the page": compute_size_of,
    "locate_array": locate_array,
    "locate on the page": locate_array,
    "signed_number": signed_number,
    "signed on the page": signed_number,
    "marshall_val": marshall,
    "marshall": marshall,
    "write on the page": marshall,
    "preview": preview,
    "preview of marshall_val": preview,
    "preview on the page": preview,
    "same_route": same_route,
    "same_route on the page": same_route,
    "choose_grammar": choose_grammar,
    "choose_grammar on the page": choose_grammar,
    "export_xdr": export_xdr,
    "export_xdr on the page": export_xdr,
    "import_xdr": import_xdr,
    "import_xdr on the page": import_xdr,
    "accepts": accepts,
    "accepts on the page": accepts,
    "least lengths on the page": least_lengths,
}

NEVER_REFUSED = {"least lengths on the page"}


def vectors(name):
    return map(json.loads, (ROOT / "vectors" / f"{name}.jsonl").read_text().splitlines())


def previews_of_writing():
    """The lines of `marshall_val` as lines of preview."""
    for line in vectors("writing"):
        if line["call"] == "marshall_val":
            line["call"] = "preview of marshall_val"
            if "accepted" in line:
                changed = differing(data(line, "out"), data(line, "out_after"))
                line["accepted"]["changed"] = str(changed)
            yield line


GRAMMARS = dict(re.findall(r"\*\*([A-E])\. [^`]*`([^`]*)`", text))
GRAMMARS.update(re.findall(r"^\| (\w+) \| `([^`]*)` \| [^|]* \|$", text, re.M))


def page_table(title, call):
    """Each row of the page's table with this title: a line of the call, and the row's cells."""
    rows = re.search(rf"^\*\*{title}\.\*\*.*\n\n\|.*\n\|.*\n((?:\|.*\n)+)", text, re.M)[1]
    for row in rows.splitlines():
        yield {"name": row, "call": call}, [cell.strip() for cell in row.split("|")][1:-1]


def lent_words(number):
    """So many lent words, as a line has them."""
    return [{"repeat": "99", "times": number}]


def readings_on_page():
    for line, cells in page_table("Accepted, kind by kind", "read on the page"):
        named, record, given, shown = cells
        named, _, how = named.partition(", ")
        line |= {"grammar": of_name(named), "record": parts(record)}
        line |= {"index": how.removeprefix("index ")} if how.startswith("index ") else {}
        rows = listed(re.match("`[^`]*`", shown)[0])
        lent = ROW_WORDS * len(rows)
        if how.endswith(" words lent"):
            lent = int(how.removesuffix(" words lent"))
        line["rows"] = lent_words(lent)
        line["rows_after"] = rows + lent_words(lent - ROW_WORDS * len(rows))
        n, rest_index = given.split(", ")
        yield line | {"accepted": {"row_count": n, "rest_index": rest_index}}
    for line, cells in page_table("Reading refused", "read on the page"):
        named, record, index, capacity, answer, _ = cells
        line |= {"grammar": of_name(named), "record": parts(record)}
        line |= {} if index == "whole" else {"index": index}
        capacity, _, lent = capacity.removesuffix(" words").partition(", of ")
        line["rows"] = lent_words(int(lent or ROW_WORDS * int(capacity)))
        yield line | {"refused": refused_in(answer)}


def row_tables_on_page():
    for line, cells in page_table("Row tables", "size"):
        call, named, rows, n, store, room, answer, why = cells
        call, _, row = call.partition(" ")
        line |= {"call": f"{call} on the page", "row": row, "n": n, "store": parts(store)}
        line["rows"] = rows_in(rows)
        if call == "write":
            index, length = room.split(", ")
            out = filling(int(length))
            shown = re.search("the output becomes (`.*`)", why)
            line |= {"grammar": of_name(named), "index": index, "out": out}
            line["out_after"] = parts(shown[1]) if shown else out
        if call == "signed" and " at " not in answer:
            line["accepted"] = {"number": answer.replace("−", "-")}
        else:
            form = r"size (?P<size>\d+)|start (?P<start>\d+), length (?P<length>\d+)"
            line |= numbers_or_refusal(form, answer)
            if "accepted" in line:
                given = line["accepted"].items()
                line["accepted"] = {name: number for name, number in given if number is not None}
        yield line


def rows_in(cell):
    """The rows of a cell, of which the last may come again, as a line has them."""
    first, _, other = cell.partition(" and ")
    times, _, row = other.partition(" times ")
    again = [{"repeat": row.strip("`"), "times": int(times.replace(",", ""))}] if row else []
    return listed(first) + again


def checks_on_page():
    for line, cells in page_table("Checks", "check on the page"):
        named, record, index, capacities, answer, _ = cells
        line |= {"grammar": of_name(named), "record": parts(record)}
        line |= {} if index == "whole" else {"index": index}
        line |= numbers_or_refusal(r"n (?P<row_count>\d+), `rest_index` (?P<rest_index>\d+)", answer)
        for capacity in re.split(", | or ", capacities):
            yield line if capacity == "none" else line | {"capacity": number_in(capacity)}


def previews_on_page():
    for line, cells in page_table("Preview", "preview on the page"):
        named, rows, n, store, out, index, answer, _ = cells
        line |= {"grammar": of_name(named), "rows": listed(rows), "n": n, "index": index}
        line |= {"store": parts(store), "out": parts(out)}
        yield line | numbers_or_refusal(r"size (?P<size>\d+), changed (?P<changed>\d+)", answer)


def same_routes_on_page():
    for line, cells in page_table("Same route", "same_route on the page"):
        named, first, second, answer, _ = cells
        line |= {"grammar": of_name(named), "first": parts(first), "second": parts(second)}
        if answer in ("yes", "no"):
            line["accepted"] = {"same": "1" if answer == "yes" else "0"}
        else:
            refusal, record = re.fullmatch(r"(.*), (\w+) record", answer).groups()
            record = ("neither", "first", "second").index(record)
            line["refused"] = refused_in(refusal) | {"record": record}
        yield line


def choices_on_page():
    for line, cells in page_table("Choosing a grammar", "choose_grammar on the page"):
        named, record, answer, _ = cells
        line |= {"list": list_in(named), "record": parts(record)}
        yield line | numbers_or_refusal(r"grammar (?P<number>\d+), begun (?P<begun>\d+)", answer)


def exports_on_page():
    for line, cells in page_table("Export", "export_xdr on the page"):
        named, rows, n, store, index_and_length, answer, shown = cells
        index, length = map(int, index_and_length.split(", "))
        shared = re.fullmatch(r"`\((\d+)\)`", rows)
        rows = byte_arrays(int(shared[1])) if shared else listed(rows)
        line |= {"grammar": of_name(named), "rows": rows, "n": n, "store": parts(store), "index": index}
        line |= {"out": filling(length)} | numbers_or_refusal(r"size (?P<size>\d+)", answer)
        if "accepted" in line:
            behind = length - index - int(line["accepted"]["size"])
            line["out_after"] = filling(index) + parts(shown) + filling(behind)
        yield line


def byte_arrays(count):
    """The rows of 4,095 byte arrays of so many bytes that share a store."""
    size = 8 + count
    return [f"3 4096 4095 0 {8 + 4095 * size}", {"repeat": f"5 1 {count} 0 {size}", "times": 4095}]


def filling(length):
    """So many bytes EE, as a line has them."""
    return [{"repeat": "EE", "times": length}] if length else []


def imports_on_page():
    for line, cells in page_table("Import", "import_xdr on the page"):
        named, record, lent, store, answer, shown = cells
        line |= {"grammar": of_name(named), "record": parts(record), "store": parts(store)}
        line |= {"rows": lent_words(int(lent))}
        line |= numbers_or_refusal(r"n (?P<row_count>\d+), used (?P<used>\d+)", answer)
        after = re.fullmatch(r"(`[^`]*`), (`[^`]*`)", shown)
        if after:
            rows = listed(after[1])
            left = int(lent) - ROW_WORDS * len(rows)
            line["rows_after"] = rows + lent_words(left)
            line["store_after"] = parts(after[2])
        yield line


def least_lengths_on_page():
    for line, cells in page_table("Least lengths", "least lengths on the page"):
        named, lengths, _ = cells
        least = [None if length == "none" else int(length) for length in lengths.split(", ")]
        yield line | {"grammar": of_name(named), "accepted": {"least": least}}


def yes_or_no_on_page():
    for line, cells in page_table("Yes or no", "accepts on the page"):
        named, record, answer, _ = cells
        line |= {"grammar": of_name(named), "record": parts(record)}
        line |= numbers_or_refusal(r"(?P<yes>yes|no), begun (?P<begun>\d+)", answer)
        if "accepted" in line:
            line["accepted"]["yes"] = "1" if line["accepted"]["yes"] == "yes" else "0"
        yield line


def numbers_or_refusal(form, cell):
    """The answer of a cell, as a line has it. Numbers given have this form."""
    numbers = re.fullmatch(form, cell)
    return {"accepted": numbers.groupdict()} if numbers else {"refused": refused_in(cell)}


def refused_in(cell):
    """The refusal of a cell, as a line has it."""
    number, place, at = re.fullmatch(r"(\d+) at (\w+) (\d+)", cell).groups()
    return {"number": int(number), "place": place, "at": at}


def number_in(text):
    """A number of a cell, which may be one less than a power of two, as a line has it."""
    power = re.fullmatch(r"2\^(\d+)−1", text)
    return str(2 ** int(power[1]) - 1) if power else text


def of_name(cell):
    """The grammar of a cell, its name or its words, as a line has it."""
    if cell == "no words":
        return []
    return listed(cell if cell.startswith("`") else GRAMMARS[cell])


def list_in(cell):
    """The grammar list of a cell, the names of its grammars or its words, as a line has it."""
    if cell == "none":
        return []
    if cell.startswith("`"):
        return listed(cell)
    grammars = []
    for name in cell.split(", "):
        name, _, times = name.partition(" × ")
        grammars += [of_name(name)] * int(times or 1)
    counted = [[str(len(" ".join(grammar).split())), *grammar] for grammar in grammars]
    return [str(len(grammars)), *itertools.chain.from_iterable(counted)]


def listed(cell):
    """The words of a cell, as a line has them."""
    return cell.strip("`").split(", ")


def parts(cell):
    """The bytes of a cell, as a line has them."""
    return [part for run in cell.split(" and ") for part in run_parts(run)]


def run_parts(run):
    """The bytes between two backticks, as a line has them."""
    text, repeated, times = run.strip("`").partition(" × ")
    if repeated:
        return [{"repeat": text, "times": int(times)}]
    return [] if text == "-" else [text]


SOURCES = [
    vectors("grammar"),
    vectors("reading"),
    readings_on_page(),
    checks_on_page(),
    vectors("rows"),
    row_tables_on_page(),
    vectors("signed"),
    vectors("writing"),
    vectors("preview"),
    previews_of_writing(),
    previews_on_page(),
    vectors("same_route"),
    same_routes_on_page(),
    vectors("choosing"),
    choices_on_page(),
    vectors("xdr"),
    exports_on_page(),
    imports_on_page(),
    vectors("accepts"),
    least_lengths_on_page(),
    yes_or_no_on_page(),
]

LOCATOR = 18  # the refusal that the text does not give


def lines():
    """The lines that the text answers."""
    for line in itertools.chain.from_iterable(SOURCES):
        if line.get("refused", {}).get("number") != LOCATOR:
            yield line


def holds(line):
    try:
        return CALLS[line["call"]](line)
    except ValueError as refusal:
        answer = dict(zip(("number", "place", "at", "record"), refusal.args))
        return line.get("refused") == answer | {"at": str(answer["at"])}


passed = failed = 0
accepted, refused = collections.Counter(), collections.Counter()
for line in lines():
    (accepted if "accepted" in line else refused)[line["call"]] += 1
    if holds(line):
        passed += 1
    else:
        failed += 1
        print("not so:", line["name"])
for call in CALLS:
    print(f"{call}: {accepted[call]} lines accepted, {refused[call]} refused")
    if accepted[call] == 0 or refused[call] == 0 and call not in NEVER_REFUSED:
        failed += 1
        print("not tried both ways:", call)
print(f"{passed} passed, {failed} failed")
sys.exit(failed != 0)
