#!/usr/bin/env python3
"""Computes what the examples with groups, joins, unions, sorts and limits print, from the rules alone; it shares nothing with the program.

Usage: examples/expected.py EXAMPLE     prints the example's expected.txt, or its cases.txt
       examples/expected.py --check     compares what it computes with the files of all its examples
       examples/expected.py --write     writes them

The rules stand in examples/rules.py.
"""
import sys

sys.dont_write_bytecode = True

import joins  # noqa: E402
import orders  # noqa: E402
import unions  # noqa: E402
from rules import *

# the examples


def sales_by_region():
    orders = table("sales-by-region/orders", int, str, Big, flag)
    amount = lambda id, region, amount, paid: amount
    by_region = group(orders, lambda id, region, amount, paid: (region,), count(), total(amount), least(amount), most(amount))
    paid = where(orders, lambda id, region, amount, paid: paid is True)
    return [
        ("region orders total least most", by_region),
        ("region total", group(paid, lambda id, region, amount, paid: (region,), total(amount))),
        ("orders amounts total", whole(orders, count(), count(amount), total(amount))),
    ]


def having():
    orders = table("having/orders", int, int, Big)
    customer = lambda id, customer, amount: (customer,)
    amount = lambda id, customer, amount: amount
    spent = group(orders, customer, count(), total(amount), most(amount))
    return [
        ("customer orders", select(where(spent, lambda c, n, t, m: n > 2), lambda c, n, t, m: (c, n))),
        ("customer spent", select(where(spent, lambda c, n, t, m: t >= 100 and m < 90), lambda c, n, t, m: (c, t))),
        ("spent", select(where(whole(orders, total(amount), count()), lambda t, n: n > 100), lambda t, n: (t,))),
    ]


def grouped_subquery():
    orders = table("grouped-subquery/orders", str, int, Big)
    spent = group(orders, lambda region, customer, amount: (region, customer), total(lambda region, customer, amount: amount))
    total_of = lambda region, customer, spent: spent
    by_customer = group(orders, lambda region, customer, amount: (customer,), total(lambda region, customer, amount: amount))
    return [
        ("region customers most", group(spent, lambda r, c, s: (r,), count(), most(total_of))),
        ("customers average", select(whole(spent, count(), total(total_of)), lambda n, t: (n, Big(t // n)))),
        # the rows are placed by the customer already
        ("customer large totals", group_in_place(select(by_customer, lambda c, s: (c, s > 50)), lambda c, l: (c, l), count())),
        ("spent customers", group(by_customer, lambda c, s: (s,), count())),
    ]


def groups():
    g, h = table("tables/g", int, int), table("tables/h", int, int)
    s, z = table("tables/s", int), table("tables/z", int)
    k, v, a = (lambda k, v: (k,)), (lambda k, v: v), (lambda a: a)
    odd = lambda a: (a % 2,)
    return [
        "without keys there is one row",
        ("SELECT count(*)", "_c0", whole(ONE_ROW, count())),
        ("SELECT count(*) FROM z", "_c0", whole(z, count())),
        ("SELECT count(*), count(v), sum(v), min(v), max(v) FROM h", "_c0 _c1 _c2 _c3 _c4", whole(h, count(), count(v), total(v), least(v), most(v))),
        ("SELECT max(a) - min(a) AS width, 'rows' AS what FROM s", "width what", select(whole(s, most(a), least(a)), lambda m, l: (m - l, "rows"))),
        ("SELECT sum(2), sum(NULL), count(NULL), min(NULL), max('x')", "_c0 _c1 _c2 _c3 _c4", [[(Big(2), None, Big(0), None, "x")]]),
        "by a column",
        ("SELECT k, sum(v) FROM g GROUP BY k", "k _c1", group(g, k, total(v))),
        ("SELECT k, sum(v) FROM h GROUP BY k", "k _c1", group(h, k, total(v))),
        ("SELECT k FROM h GROUP BY k", "k", group(h, k)),
        ("SELECT count(*) FROM h GROUP BY k", "_c0", select(group(h, k, count()), lambda k, n: (n,))),
        ("SELECT a FROM s GROUP BY a", "a", group(s, lambda a: (a,))),
        (
            "SELECT H.K, (k), +k, k + 1, count(*) AS n, count(*) m FROM h GROUP BY k",
            "k k _c2 _c3 n m",
            select(group(h, k, count()), lambda k, n: (k, k, k, k + 1, n, n)),
        ),
        ("SELECT k, count(*) FROM h WHERE v > 5 GROUP BY h.k", "k _c1", group(where(h, lambda k, v: v > 5), k, count())),
        "by several, each as often as it stands there",
        ("SELECT v, k, count(*) FROM h GROUP BY k, v", "v k _c2", select(group(h, lambda k, v: (k, v), count()), lambda k, v, n: (v, k, n))),
        ("SELECT k, v, count(*) FROM h GROUP BY v, k", "k v _c2", select(group(h, lambda k, v: (v, k), count()), lambda v, k, n: (k, v, n))),
        ("SELECT a FROM s GROUP BY a, a", "a", select(group(s, lambda a: (a, a)), lambda a, b: (a,))),
        "by an expression, an alias or a position",
        ("SELECT a % 2, sum(a) FROM s GROUP BY a % 2", "_c0 _c1", group(s, odd, total(a))),
        ("SELECT a % 2 = 1, count(*) FROM s GROUP BY a % 2", "_c0 _c1", select(group(s, odd, count()), lambda r, n: (r == 1, n))),
        ("SELECT a % 2 AS odd, count(*) FROM s GROUP BY odd", "odd _c1", group(s, odd, count())),
        ("SELECT max(a), a % 2 FROM s GROUP BY 2", "_c0 _c1", select(group(s, odd, most(a)), lambda r, m: (m, r))),
        ("SELECT *, count(*) FROM h GROUP BY (2), 1", "k v _c2", select(group(h, lambda k, v: (v, k), count()), lambda v, k, n: (k, v, n))),
        ("SELECT a > 2, count(*) FROM s GROUP BY a > 2", "_c0 _c1", group(s, lambda a: (a > 2,), count())),
        (
            "SELECT CASE WHEN a > 2 THEN 'large' ELSE 'small' END AS size, count(*) FROM s GROUP BY size",
            "size _c1",
            group(s, lambda a: ("large" if a > 2 else "small",), count()),
        ),
        ("SELECT 'all', count(*) FROM s GROUP BY 'all'", "_c0 _c1", group(s, lambda a: ("all",), count())),
        ("SELECT count(*) FROM s GROUP BY NULL", "_c0", select(group(s, lambda a: (None,), count()), lambda k, n: (n,))),
        ("SELECT 1 AS x, count(*) GROUP BY x", "x _c1", group_in_place(ONE_ROW, lambda: (1,), count())),
        "HAVING",
        (
            "SELECT k, max(v) FROM h GROUP BY k HAVING count(*) > 1",
            "k _c1",
            select(where(group(h, k, most(v), count()), lambda k, m, n: n > 1), lambda k, m, n: (k, m)),
        ),
        ("SELECT k, count(*) AS n FROM h GROUP BY k HAVING n = 1", "k n", where(group(h, k, count()), lambda k, n: n == 1)),
        ("SELECT k FROM g GROUP BY k HAVING k IS NOT NULL", "k", where(group(g, k), lambda k: k is not None)),
        ("SELECT k FROM h GROUP BY k HAVING NULL", "k", []),
        ("SELECT 'some' AS found FROM h HAVING count(*) > 2", "found", [[("some",)]]),
        ("SELECT 'some' AS found FROM h HAVING count(*) > 3", "found", []),
        "over calls and keys",
        (
            "SELECT sum(v) * 10 + k, CASE WHEN min(v) < max(v) THEN 'several' ELSE 'one' END FROM h GROUP BY k",
            "_c0 _c1",
            select(group(h, k, total(v), least(v), most(v)), lambda k, t, l, m: (Big(t * 10 + k), "several" if l < m else "one")),
        ),
        ("SELECT k, coalesce(max(v), 0) FROM g GROUP BY k", "k _c1", group(g, k, most(v))),
        "of groups",
        ("SELECT max(n) FROM (SELECT k, count(*) AS n FROM h GROUP BY k) q", "_c0", whole(group(h, k, count()), most(lambda k, n: n))),
        (
            "SELECT n, count(*) FROM (SELECT count(*) AS n FROM s GROUP BY a % 2) GROUP BY n",
            "n _c1",
            group(select(group(s, odd, count()), lambda r, n: (n,)), lambda n: (n,), count()),
        ),
        ("SELECT n, count(*) FROM (SELECT count(*) AS n FROM h) GROUP BY n", "n _c1", group_in_place(whole(h, count()), lambda n: (n,), count())),
    ]


def empty_groups():
    z = table("tables/z", int)
    nothing, s, a = table("empty-groups/nothing", int), table("tables/s", int), (lambda a: a)
    five = "_c0 _c1 _c2 _c3 _c4"
    calls = count(), count(a), total(a), least(a), most(a)
    return [
        "a table of one empty file, a folder without a file, and no row that is left: without keys there is one row",
        ("SELECT count(*), count(a), sum(a), min(a), max(a) FROM z", five, whole(z, *calls)),
        ("SELECT count(*), count(a), sum(a), min(a), max(a) FROM nothing", five, whole(nothing, *calls)),
        ("SELECT count(*), count(a), sum(a), min(a), max(a) FROM s WHERE a > 5", five, whole(where(s, lambda a: a > 5), *calls)),
        ("SELECT count(*) + 1, 'none', sum(a) IS NULL FROM z", "_c0 _c1 _c2", [[(Big(1), "none", True)]]),
        ("SELECT count(*) WHERE FALSE", "_c0", [[(Big(0),)]]),
        ("SELECT 1 FROM z HAVING TRUE", "_c0", [[(1,)]]),
        ("SELECT count(*) AS n FROM z HAVING n > 0", "n", []),
        "with keys there is no group, not even where the key is a constant",
        ("SELECT a, count(*) FROM z GROUP BY a", "a _c1", group(z, lambda a: (a,), count())),
        ("SELECT a, count(*) FROM nothing GROUP BY a", "a _c1", group(nothing, lambda a: (a,), count())),
        ("SELECT count(*) FROM z GROUP BY 'all'", "_c0", []),
        "so counting these groups counts none",
        ("SELECT count(*), max(n) FROM (SELECT count(*) AS n FROM z GROUP BY a)", "_c0 _c1", [[(Big(0), None)]]),
        ("SELECT count(*), max(n) FROM (SELECT count(*) AS n FROM z)", "_c0 _c1", [[(Big(1), Big(0))]]),
    ]


def null_groups():
    visits = table("null-groups/visits", str, int, int)
    city, age, paid = (lambda c, a, p: c), (lambda c, a, p: a), (lambda c, a, p: p)
    by_city = lambda c, a, p: (c,)
    both = lambda c, a, p: (c, a)
    return [
        "the rows whose key is NULL are one group",
        ("SELECT city, count(*), sum(paid) FROM visits GROUP BY city", "city _c1 _c2", group(visits, by_city, count(), total(paid))),
        ("SELECT city, age, count(*) FROM visits GROUP BY city, age", "city age _c2", group(visits, both, count())),
        ("SELECT age IS NULL, count(*) FROM visits GROUP BY age IS NULL", "_c0 _c1", group(visits, lambda c, a, p: (a is None,), count())),
        ("SELECT count(*) FROM visits WHERE city = NULL GROUP BY city", "_c0", []),
        "NULLs are left out of each call but count(*)",
        (
            "SELECT city, count(*), count(age), sum(age), min(age), max(age) FROM visits GROUP BY city",
            "city _c1 _c2 _c3 _c4 _c5",
            group(visits, by_city, count(), count(age), total(age), least(age), most(age)),
        ),
        (
            "SELECT count(*), count(city), count(1), min(city), max(city) FROM visits",
            "_c0 _c1 _c2 _c3 _c4",
            whole(visits, count(), count(city), count(), least(city), most(city)),
        ),
        "a group whose sum is NULL is dropped by a HAVING over it",
        (
            "SELECT city FROM visits GROUP BY city HAVING sum(age) > 0",
            "city",
            select(where(group(visits, by_city, total(age)), lambda c, t: t is not None and t > 0), lambda c, t: (c,)),
        ),
    ]


def text_keys():
    words = table("text-keys/words", str, int)
    key, number = (lambda w, n: (w,)), (lambda w, n: n)
    accented = lambda w, n: ("été" if n > 5 else "ä",)
    return [
        "texts of each length, also of one that is no whole number of words",
        ("SELECT word, count(*), sum(number) FROM words GROUP BY word", "word _c1 _c2", group(words, key, count(), total(number))),
        "compared byte by byte: upper case is another key, and so is a blank more",
        (
            "SELECT word, length(word) FROM words WHERE length(word) < 5 GROUP BY word",
            "word _c1",
            select(group(where(words, lambda w, n: w is not None and len(w) < 5), key), lambda w: (w, len(w))),
        ),
        ("SELECT min(word), max(word) FROM words", "_c0 _c1", whole(words, least(lambda w, n: w), most(lambda w, n: w))),
        "bytes above 127 behind the last whole word have a sign",
        (
            "SELECT CASE WHEN number > 5 THEN 'été' ELSE 'ä' END AS season, count(*) FROM words GROUP BY season",
            "season _c1",
            group(words, accented, count()),
        ),
        "a key of a text and a number",
        (
            "SELECT word, number % 2, count(*) FROM words GROUP BY word, number % 2",
            "word _c1 _c2",
            group(words, lambda w, n: (w, n % 2), count()),
        ),
    ]


def placed_keys():
    # the first is a value of Spark's documentation: hash('Spark', array(123), 2)
    assert (murmur(("Spark", 123, 2)), murmur((1,)), place_of((1,)), place_of((None,))) == (-1321691492, -559580957, 43, 42)
    numbers = table("placed-keys/numbers", int)
    flags = table("placed-keys/flags", flag, Big)
    number = lambda n: (n,)
    big = lambda n: (None if n is None else Big(n),)
    return [
        "the key NULL has place 42, and 1 has place 43; groups of one place stand as they came",
        ("SELECT n, count(*) FROM numbers GROUP BY n", "n _c1", group(numbers, number, count())),
        "a BIGINT has another place than the INT of its value",
        ("SELECT CAST(n AS BIGINT), count(*) FROM numbers GROUP BY CAST(n AS BIGINT)", "_c0 _c1", group(numbers, big, count())),
        "a BOOLEAN has the place of the INT 1 or 0",
        ("SELECT yes, count(*) FROM flags GROUP BY yes", "yes _c1", group(flags, lambda y, n: (y,), count())),
        "BIGINTs of two words, below 0 too",
        ("SELECT n FROM flags GROUP BY n", "n", group(flags, lambda y, n: (n,))),
        ("SELECT n, yes FROM flags GROUP BY yes, n", "n yes", select(group(flags, lambda y, n: (y, n)), lambda y, n: (n, y))),
    ]


def sums():
    small, large = table("sums/small", int, flag), table("sums/large", Big)
    n, x = (lambda n, yes: n), (lambda x: x)
    yes = lambda n, yes: yes
    there = where(small, lambda n, yes: n is not None)
    return [
        "the sum of INTs is a BIGINT",
        ("SELECT sum(n), sum(n + 0), sum(-n) FROM small", "_c0 _c1 _c2", whole(there, total(n), total(n), total(lambda n, yes: -n))),
        "an argument is worked out in its own type, and goes round there",
        ("SELECT sum(n + 1) FROM small", "_c0", whole(there, total(lambda n, yes: (n + 1 + 2**31) % 2**32 - 2**31))),
        "the sum of BIGINTs goes round",
        ("SELECT sum(x), count(x), min(x), max(x) FROM large", "_c0 _c1 _c2 _c3", whole(large, total(x), count(x), least(x), most(x))),
        ("SELECT sum(x) - 1 FROM large WHERE x > 0", "_c0", [[(Big(2**63 - 1),)]]),
        "min and max have the type of their argument",
        ("SELECT min(yes), max(yes), count(yes) FROM small", "_c0 _c1 _c2", whole(small, least(yes), most(yes), count(yes))),
        ("SELECT max(n) + 1, min(n) - 1 FROM small", "_c0 _c1", [[(-(2**31), -6)]]),
        ("SELECT yes, max(n) FROM small GROUP BY yes", "yes _c1", group(small, lambda n, yes: (yes,), most(n))),
    ]


def distinct():
    g, h = table("tables/g", int, int), table("tables/h", int, int)
    s, z = table("tables/s", int), table("tables/z", int)
    every = lambda *row: row
    k = lambda k, v: (k,)
    by_k = group(h, k, count())
    pairs = join("cross", Side(h, 2), Side(s, 1), None, lambda k, v, a: True)
    return [
        "each row once, as groups by all columns are; NULL is a value like another",
        ("SELECT DISTINCT k FROM h", "k", group(h, k)),
        ("SELECT DISTINCT k FROM g", "k", group(g, k)),
        ("SELECT DISTINCT * FROM h", "k v", group(h, every)),
        ("SELECT DISTINCT v, k FROM h", "v k", group(select(h, lambda k, v: (v, k)), every)),
        ("SELECT DISTINCT a % 2 AS odd FROM s", "odd", group(select(s, lambda a: (a % 2,)), every)),
        ("SELECT DISTINCT 'same' AS word FROM s", "word", group(select(s, lambda a: ("same",)), every)),
        ("SELECT DISTINCT NULL", "_c0", group_in_place([[(None,)]], every)),
        ("SELECT DISTINCT a FROM z", "a", []),
        ("SELECT ALL k FROM h", "k", select(h, k)),
        "of groups, beside calls, and below them",
        ("SELECT DISTINCT count(*) FROM h GROUP BY k", "_c0", group(select(by_k, lambda k, n: (n,)), every)),
        ("SELECT DISTINCT k FROM (SELECT k, count(*) AS n FROM h GROUP BY k) q", "k", group_in_place(select(by_k, lambda k, n: (k,)), every)),
        ("SELECT count(*) FROM (SELECT DISTINCT k FROM h) q", "_c0", whole(group(h, k), count())),
        ("SELECT DISTINCT count(*), max(v) FROM h", "_c0 _c1", group_in_place(whole(h, count(), most(lambda k, v: v)), every)),
        "of joins",
        ("SELECT DISTINCT k FROM h, s", "k", group_in_place(select(pairs.parts, lambda k, v, a: (k,)), every)),
        "HAVING stands below it",
        ("SELECT DISTINCT k FROM h GROUP BY k, v HAVING v > 5", "k", group(select(where(group(h, every), lambda k, v: v > 5), k), every)),
    ]


ONE_RUN = {"sales-by-region": sales_by_region, "having": having, "grouped-subquery": grouped_subquery, **joins.ONE_RUN, **unions.ONE_RUN, **orders.ONE_RUN}
CASES = {
    **joins.CASES,
    **unions.CASES,
    **orders.CASES,
    "groups": groups,
    "empty-groups": empty_groups,
    "null-groups": null_groups,
    "text-keys": text_keys,
    "placed-keys": placed_keys,
    "sums": sums,
    "distinct": distinct,
}


def expected(example):
    """The file of an example that has what is expected, and its text."""
    if example in ONE_RUN:
        return HERE / example / "expected.txt", "".join(result(names, parts) for names, parts in ONE_RUN[example]())
    return HERE / example / "cases.txt", "".join(map(case_of, CASES[example]()))


def main(words):
    if len(words) != 1:
        sys.exit(__doc__)
    if words[0] in ONE_RUN or words[0] in CASES:
        sys.stdout.write(expected(words[0])[1])
        return 0
    differing = 0
    for path, text in map(expected, [*ONE_RUN, *CASES]):
        if words == ["--write"]:
            path.write_text(text, encoding="utf-8")
        elif words == ["--check"]:
            if not path.is_file() or path.read_text(encoding="utf-8") != text:
                differing += 1
                print(f"expected: {path} has another text", file=sys.stderr)
        else:
            sys.exit(__doc__)
    return 1 if differing else 0


if __name__ == "__main__":
    sys.exit(main(sys.argv[1:]))
