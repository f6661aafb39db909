#!/usr/bin/env python3
"""Times queries with the built program beside sqlite3, over the same tables in the same run, and compares the rows.

Usage: bench/run.py [--program PATH] [--rows N] [--runs N] [--twice] [--plot] [QUERY ..]

QUERY is a name of bench/queries, without `.sql`; no name means all of them. Where sqlite3 has to be asked in other words, these
stand in `NAME.sqlite`. For each query it prints the wall time and the
peak memory of both, and the ratio of the times. Of several runs (three, or as --runs says) the fastest counts. Its time goes
from the start of a program to its end, and so with the reading of the tables.

--twice    runs the query over twice the rows too, and prints the factor by which the time grows
--plot     draws the times as bars into bench/figures.svg, where python3-matplotlib is there
--program  another program than crates/aqe/out/aqe; $AQE names one too

Ends with 1 where a run failed or rows differ. Whether the aims are met is printed and nothing more, since a busy machine misses them.
"""
import argparse
import filecmp
import os
import pathlib
import random
import re
import subprocess
import sys
import tempfile
import time

HERE = pathlib.Path(__file__).resolve().parent
FILES = 8
CUSTOMERS, ITEMS = 10_000, 20
REGIONS = ["north", "northeast", "east", "southeast", "south", "southwest", "west", "northwest"]
# the columns of each table; sqlite3 knows these types too, but for STRING
TABLES = {
    "customers": "id INT, region STRING, level INT",
    "orders": "id INT, customer INT, region STRING, item INT, amount BIGINT",
    "payments": "orderid INT, day INT, paid BIGINT",
    "visits": "id INT, customer INT, page INT",
}
# at most so much of sqlite3's time, so many MB (of a join more), and so much more time for twice the rows
RATIO, MEMORY, MEMORY_OF_JOINS, FACTOR = 0.5, 600, 1500, 2.1


class Failed(Exception):
    """A run that did not end with 0; its text says how it ended."""


def region_of(customer):
    return REGIONS[customer % len(REGIONS)]


def customers():
    for customer in range(CUSTOMERS):
        yield f"{customer},{region_of(customer)},{customer % 5}\n"


def orders(numbers):
    """Lines of orders with these numbers: customers and items by chance, amounts with the returns below 0."""
    chance = random.Random(numbers.start).random
    for number in numbers:
        customer = int(chance() * CUSTOMERS)
        yield f"{number},{customer},{region_of(customer)},{int(chance() * ITEMS)},{int(chance() * 100_000) - 5_000}\n"


def payments(numbers):
    """A payment for each order of these numbers, in another order than theirs."""
    chance = random.Random(numbers.start + 1).random
    for number in random.Random(numbers.start + 2).sample(numbers, len(numbers)):
        yield f"{number},{int(chance() * 365)},{int(chance() * 100_000)}\n"


def visits(numbers):
    """Visits of customers, of which one customer makes 30 of 100."""
    chance = random.Random(numbers.start + 3).random
    for number in numbers:
        customer = 7 if chance() < 0.3 else int(chance() * CUSTOMERS)
        yield f"{number},{customer},{int(chance() * 1_000)}\n"


def make_file(path, lines):
    path.parent.mkdir(parents=True, exist_ok=True)
    unfinished = path.with_name("_unfinished")
    with open(unfinished, "w", encoding="ascii") as file:
        file.writelines(lines)
    unfinished.rename(path)


def tables_of(rows):
    """The folder with the tables of so many orders; they are made where they are not there yet."""
    room = HERE / "data" / str(rows)
    if not (room / "customers" / "0.csv").is_file():
        print(f"making tables of {rows:,} orders under {room}", file=sys.stderr)
        for part in range(FILES):
            numbers = range(part * rows // FILES, (part + 1) * rows // FILES)
            for name, lines in {"orders": orders, "payments": payments, "visits": visits}.items():
                make_file(room / name / f"{part}.csv", lines(numbers))
        make_file(room / "customers" / "0.csv", customers())
    return room


def tables_named(query):
    return [table for table in TABLES if re.search(rf"\bFROM {table}\b|\bJOIN {table}\b", query)]


def words_of_program(program, query, work):
    script = work / "q.sql"
    creates = [f"CREATE TABLE {table} ({TABLES[table]}) USING csv LOCATION '{table}';\n" for table in tables_named(query)]
    script.write_text("".join(creates) + query, encoding="ascii")
    return [str(program), "run", str(script)]


def words_of_sqlite(query, room):
    words = ["sqlite3", ":memory:", "-cmd", ".mode csv"]
    for table in tables_named(query):
        words += ["-cmd", f"create table {table} ({TABLES[table].replace('STRING', 'TEXT')})"]
        for path in sorted((room / table).glob("*.csv")):
            words += ["-cmd", f".import {table}/{path.name} {table}"]
    # the blank in front, since sqlite3 takes a word that begins with `-` for an option
    return words + ["-cmd", '.separator "\\t" "\\n"', f" {query}"]


def run_once(words, room, out):
    """Wall seconds and peak MB of one run, whose output goes into the file out."""
    with open(out, "wb") as sink, tempfile.TemporaryFile() as faults:
        begun = time.monotonic()
        child = subprocess.Popen(words, cwd=room, stdin=subprocess.DEVNULL, stdout=sink, stderr=faults)
        _, status, used = os.wait4(child.pid, 0)
        wall = time.monotonic() - begun
        child.returncode = os.waitstatus_to_exitcode(status)
        if child.returncode != 0:
            faults.seek(0)
            line = faults.read(300).decode("utf-8", "replace").strip()
            raise Failed(f"{pathlib.Path(words[0]).name} ended with {child.returncode}: {line}")
    return wall, used.ru_maxrss / 1024


def run_best(words, room, out, runs):
    """The least wall time and the most memory of several runs."""
    walls, peaks = zip(*(run_once(words, room, out) for _ in range(runs)))
    return min(walls), max(peaks)


def sort_lines(lines, out, skip_ends):
    """Writes the lines of a file in byte order; without its first and last line where these are no rows."""
    take = f"sed -e 1d -e '$d' '{lines}'" if skip_ends else f"cat '{lines}'"
    subprocess.run(f"{take} | LC_ALL=C sort >'{out}'", shell=True, check=True)


def rows_agree(work, ordered):
    """Whether both outputs have the same rows, each as often; in the same order where the query asks for one."""
    if ordered:
        subprocess.run(f"sed -e 1d -e '$d' '{work}/aqe' >'{work}/aqe.rows'", shell=True, check=True)
        return filecmp.cmp(work / "aqe.rows", work / "sqlite3", shallow=False)
    sort_lines(work / "aqe", work / "aqe.rows", True)
    sort_lines(work / "sqlite3", work / "sqlite3.rows", False)
    return filecmp.cmp(work / "aqe.rows", work / "sqlite3.rows", shallow=False)


def measure(query, other_query, rows, choice):
    """The times and peaks of both, as a dictionary; refuses rows that differ."""
    room = tables_of(rows)
    with tempfile.TemporaryDirectory() as name:
        work = pathlib.Path(name)
        wall, peak = run_best(words_of_program(choice.program, query, work), room, work / "aqe", choice.runs)
        other, other_peak = run_best(words_of_sqlite(other_query, room), room, work / "sqlite3", choice.runs)
        if not rows_agree(work, query.upper().rfind("ORDER BY") > query.rfind(")")):
            raise Failed("the rows differ from those of sqlite3")
    return {"rows": rows, "wall": wall, "peak": peak, "other": other, "other_peak": other_peak}


def verdict(name, first, factor):
    missed = []
    if first["wall"] > RATIO * first["other"]:
        missed.append("time")
    if first["peak"] > (MEMORY_OF_JOINS if "join" in name else MEMORY):
        missed.append("memory")
    if factor and factor > FACTOR:
        missed.append("growth")
    return "misses " + ", ".join(missed) if missed else "met"


def line_of(name, seen, factor):
    grown = f"{factor:.2f}" if factor else ""
    return (
        f"| {name:15} | {seen['rows']:>9,} | {seen['wall']:6.2f} s | {seen['other']:6.2f} s | {seen['wall'] / seen['other']:5.2f} "
        f"| {seen['peak']:5.0f} MB | {seen['other_peak']:5.0f} MB | {grown:6} | {verdict(name, seen, factor)} |"
    )


def plot(figures):
    """Draws the times of both, query by query."""
    try:
        import matplotlib
    except ImportError:
        print(f"no figure was drawn: {sys.executable} has no matplotlib (package python3-matplotlib)", file=sys.stderr)
        return
    matplotlib.use("svg")
    matplotlib.rcParams["svg.hashsalt"] = "aqe"
    from matplotlib import pyplot

    figure, axes = pyplot.subplots(figsize=(8, 1 + 0.7 * len(figures)))
    places = range(len(figures))
    for shift, key, label, colour in [(-0.2, "wall", "aqe", "#2a6f97"), (0.2, "other", "sqlite3", "#c9ada7")]:
        bars = axes.barh([place + shift for place in places], [seen[key] for _, seen in figures], 0.4, label=label, color=colour)
        axes.bar_label(bars, fmt="%.2f s", padding=3)
    axes.set_yticks(list(places), [name for name, _ in figures])
    axes.invert_yaxis()
    axes.set_xlabel(f"wall seconds over {figures[0][1]['rows']:,} orders, with the reading of the table")
    axes.spines[["top", "right"]].set_visible(False)
    axes.margins(x=0.12)
    axes.legend(frameon=False)
    figure.tight_layout()
    figure.savefig(HERE / "figures.svg", metadata={"Date": None})


def choice_of(words):
    top = HERE.parent
    parser = argparse.ArgumentParser(description="Times queries beside sqlite3, and compares the rows.")
    parser.add_argument("queries", nargs="*", metavar="QUERY", help="a name of bench/queries; without one, all")
    parser.add_argument("--program", default=os.environ.get("AQE", top / "crates/aqe/out/aqe"), help="the program to time")
    parser.add_argument("--rows", type=int, default=1_000_000, help="how many orders there are")
    parser.add_argument("--runs", type=int, default=3, help="how many runs there are, of which the fastest counts")
    parser.add_argument("--twice", action="store_true", help="twice the rows too")
    parser.add_argument("--plot", action="store_true", help="draw bench/figures.svg")
    choice = parser.parse_args(words)
    choice.program = pathlib.Path(choice.program).resolve()
    if not choice.program.is_file():
        parser.error(f"there is no program at {choice.program}")
    return choice


def main(words):
    choice = choice_of(words)
    names = choice.queries or sorted(path.stem for path in (HERE / "queries").glob("*.sql"))
    print("| query           |    orders |      aqe |  sqlite3 | ratio |     peak |  sqlite3 | twice  | aims |")
    print("|---|---|---|---|---|---|---|---|---|")
    figures, failed = [], 0
    for name in names:
        try:
            query = (HERE / "queries" / f"{name}.sql").read_text(encoding="ascii")
            other = HERE / "queries" / f"{name}.sqlite"
            other_query = other.read_text(encoding="ascii") if other.is_file() else query
            seen = measure(query, other_query, choice.rows, choice)
            grown = measure(query, other_query, 2 * choice.rows, choice) if choice.twice else None
            figures.append((name, seen))
            print(line_of(name, seen, grown and grown["wall"] / seen["wall"]), flush=True)
        except (Failed, OSError) as fault:
            failed += 1
            print(f"{name}: {fault}", file=sys.stderr)
    if choice.plot and figures:
        plot(figures)
    return 1 if failed else 0


if __name__ == "__main__":
    sys.exit(main(sys.argv[1:]))
