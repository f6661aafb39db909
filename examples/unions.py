"""The examples of UNION, LIMIT and OFFSET."""
from rules import *

MOST = 2**63 - 1
every = lambda *row: row


def big(*columns):
    """The row with these of its columns as BIGINTs."""
    return lambda *row: tuple(Big(value) if value is not None and place in columns else value for place, value in enumerate(row))


def two_years():
    older, newer = table("two-years/orders_2023", int, str, str, int), table("two-years/orders_2024", int, str, str, int)
    of_both = union(select(older, lambda *row: (2023, *row)), select(newer, lambda *row: (2024, *row)))
    customer = lambda id, customer, product, amount: (customer,)
    by_year = group(of_both, lambda year, *row: (year,), count(), total(lambda *row: row[4]))
    by_customer = group(union(older, newer), customer, count(), total(lambda *row: row[3]))
    years = group(of_both, lambda year, id, customer, *more: (year, customer))
    largest = sort(of_both, desc(lambda year, id, customer, product, amount: amount), asc(lambda year, *row: year), asc(lambda year, id, *row: id))
    loyal = where(group(years, lambda year, customer: (customer,), count()), lambda customer, years: years == 2)
    return [
        ("year id customer product amount", of_both),
        ("customer", group(union(select(older, customer), select(newer, customer)), every)),
        ("year orders total", by_year),
        ("customer orders total", by_customer),
        ("customer", select(loyal, lambda customer, years: (customer,))),
        ("year id customer product amount", limit(largest, 5)),
        ("customer", sort(group(union(select(older, customer), select(newer, customer)), every), asc(lambda customer: customer))),
    ]


def distinct_pairs():
    orders = table("distinct-pairs/orders", int, str, str, int)
    pairs = group(select(orders, lambda id, customer, product, n: (customer, product)), every)
    return [
        ("customer product", pairs),
        ("pairs", whole(pairs, count())),
        ("product customers", group(pairs, lambda customer, product: (product,), count(lambda customer, product: customer))),
    ]


def limit_and_offset():
    s, h, g = table("tables/s", int), table("tables/h", int, int), table("tables/g", int, int)
    z = table("tables/z", int)
    l, r = source("tables/l", int), source("tables/r", int, int)
    k = lambda k, v: (k,)
    keys = (lambda k: (k,), k)
    met = lambda k, j, v: same(k, j)
    sums = group(h, k, total(lambda k, v: v))
    joined = join("inner", l, r, keys, met).parts
    loop = join("cross", l, Side(s, 1), None, lambda k, a: True).parts
    three_of_h, two_of_h = Side(limit(h, 3), 2), Side(select(limit(h, 2), k), 1)
    one_of_h, two_of_r = Side(select(limit(h, 1, 1), k), 1), Side(limit(r.parts, 2), 2)
    by_first = (k, lambda k: (k,))
    short = join("cross", Side(limit(s, 2), 1), Side(limit(l.parts, None, 1), 1), None, lambda a, k: True)
    return [
        "rows are taken in the order in which they are read: file by file",
        ("SELECT a FROM s LIMIT 3", "a", limit(s, 3)),
        ("SELECT a FROM s LIMIT 1", "a", limit(s, 1)),
        ("SELECT a FROM s LIMIT 0", "a", limit(s, 0)),
        ("SELECT a FROM s LIMIT 5", "a", limit(s, 5)),
        ("SELECT a FROM s LIMIT 6", "a", limit(s, 6)),
        ("SELECT * FROM h LIMIT 2L", "k v", limit(h, 2)),
        "OFFSET skips rows; alone it leaves all behind them",
        ("SELECT a FROM s OFFSET 0", "a", limit(s)),
        ("SELECT a FROM s OFFSET 1", "a", limit(s, None, 1)),
        ("SELECT a FROM s OFFSET 2", "a", limit(s, None, 2)),
        ("SELECT a FROM s OFFSET 4", "a", limit(s, None, 4)),
        ("SELECT a FROM s OFFSET 5", "a", limit(s, None, 5)),
        ("SELECT a FROM s OFFSET 6", "a", limit(s, None, 6)),
        "both: first it skips, then it counts",
        ("SELECT a FROM s LIMIT 2 OFFSET 0", "a", limit(s, 2)),
        ("SELECT a FROM s LIMIT 2 OFFSET 1", "a", limit(s, 2, 1)),
        ("SELECT a FROM s LIMIT 2 OFFSET 4", "a", limit(s, 2, 4)),
        ("SELECT a FROM s LIMIT 2 OFFSET 5", "a", limit(s, 2, 5)),
        ("SELECT a FROM s LIMIT 0 OFFSET 2", "a", limit(s, 0, 2)),
        "the greatest numbers do not go round, alone or together",
        (f"SELECT a FROM s LIMIT {MOST}", "a", limit(s, MOST)),
        (f"SELECT a FROM s OFFSET {MOST}", "a", limit(s, None, MOST)),
        (f"SELECT a FROM s LIMIT {MOST} OFFSET 2", "a", limit(s, MOST, 2)),
        (f"SELECT a FROM s LIMIT 2 OFFSET {MOST}", "a", limit(s, 2, MOST)),
        (f"SELECT a FROM s LIMIT {MOST} OFFSET {MOST}", "a", limit(s, MOST, MOST)),
        (f"SELECT a FROM s LIMIT {2**32}", "a", limit(s, 2**32)),
        (f"SELECT a FROM s LIMIT 2 OFFSET {2**32}", "a", limit(s, 2, 2**32)),
        (f"SELECT a FROM s LIMIT {2**32 + 1} OFFSET 1", "a", limit(s, 2**32 + 1, 1)),
        "of one row, and of none",
        ("SELECT 1 LIMIT 1", "_c0", limit([[(1,)]], 1)),
        ("SELECT 1 LIMIT 0", "_c0", limit([[(1,)]], 0)),
        ("SELECT 1 OFFSET 0", "_c0", limit([[(1,)]])),
        ("SELECT 1 OFFSET 1", "_c0", limit([[(1,)]], None, 1)),
        ("SELECT 1 LIMIT 3 OFFSET 1", "_c0", limit([[(1,)]], 3, 1)),
        ("SELECT a FROM z LIMIT 1", "a", limit(z, 1)),
        ("SELECT a FROM z OFFSET 1", "a", limit(z, None, 1)),
        "behind WHERE",
        ("SELECT a FROM s WHERE a < 5 LIMIT 2", "a", limit(where(s, lambda a: a < 5), 2)),
        ("SELECT a + 1 AS next FROM s WHERE a > 1 LIMIT 2 OFFSET 1", "next", limit(select(where(s, lambda a: a > 1), lambda a: (a + 1,)), 2, 1)),
        ("SELECT a FROM s WHERE a > 5 LIMIT 2", "a", []),
        "of queries in parentheses, which have their own",
        ("(SELECT a FROM s LIMIT 3) LIMIT 2", "a", limit(limit(s, 3), 2)),
        ("(SELECT a FROM s LIMIT 2) LIMIT 3", "a", limit(limit(s, 2), 3)),
        ("(SELECT a FROM s LIMIT 3) OFFSET 1", "a", limit(limit(s, 3), None, 1)),
        ("(SELECT a FROM s OFFSET 1) LIMIT 3 OFFSET 1", "a", limit(limit(s, None, 1), 3, 1)),
        ("((SELECT a FROM s LIMIT 4 OFFSET 1) LIMIT 2 OFFSET 1)", "a", limit(limit(s, 4, 1), 2, 1)),
        "of subqueries: what stands outside sees the rows that are left",
        ("SELECT a + 10 FROM (SELECT a FROM s LIMIT 2) q", "_c0", select(limit(s, 2), lambda a: (a + 10,))),
        ("SELECT a FROM (SELECT a FROM s LIMIT 3) q WHERE a > 1", "a", where(limit(s, 3), lambda a: a > 1)),
        ("SELECT a FROM (SELECT a FROM s WHERE a > 1 LIMIT 3) q", "a", limit(where(s, lambda a: a > 1), 3)),
        ("SELECT a FROM (SELECT a FROM s LIMIT 4) q WHERE a < 5 LIMIT 2", "a", limit(where(limit(s, 4), lambda a: a < 5), 2)),
        ("SELECT count(*), sum(a) FROM (SELECT a FROM s LIMIT 3) q", "_c0 _c1", whole(limit(s, 3), count(), total(lambda a: a))),
        ("SELECT count(*), sum(a) FROM (SELECT a FROM s LIMIT 0) q", "_c0 _c1", whole(limit(s, 0), count(), total(lambda a: a))),
        "of groups",
        ("SELECT k, sum(v) FROM h GROUP BY k LIMIT 1", "k _c1", limit(sums, 1)),
        ("SELECT k, sum(v) FROM h GROUP BY k OFFSET 1", "k _c1", limit(sums, None, 1)),
        ("SELECT k FROM h GROUP BY k HAVING sum(v) > 15 LIMIT 1", "k", limit(select(where(sums, lambda k, t: t > 15), lambda k, t: (k,)), 1)),
        ("SELECT count(*) FROM s LIMIT 1", "_c0", limit(whole(s, count()), 1)),
        ("SELECT count(*) FROM s LIMIT 0", "_c0", limit(whole(s, count()), 0)),
        ("SELECT count(*) FROM s OFFSET 1", "_c0", limit(whole(s, count()), None, 1)),
        ("SELECT DISTINCT k FROM h LIMIT 1", "k", limit(group(h, k), 1)),
        ("SELECT DISTINCT k FROM g OFFSET 1", "k", limit(group(g, k), None, 1)),
        "groups of the rows that are left, which stand in one part",
        ("SELECT k, count(*) FROM (SELECT * FROM h LIMIT 2) q GROUP BY k", "k _c1", group_in_place(limit(h, 2), k, count())),
        ("SELECT k, sum(v) FROM (SELECT * FROM h OFFSET 1) q GROUP BY k", "k _c1", group_in_place(limit(h, None, 1), k, total(lambda k, v: v))),
        ("SELECT DISTINCT k FROM (SELECT k FROM g OFFSET 1) q", "k", group_in_place(select(limit(g, None, 1), k), lambda k: (k,))),
        ("SELECT count(*) FROM (SELECT k FROM h GROUP BY k LIMIT 1) q", "_c0", whole(limit(group(h, k), 1), count())),
        "of joins",
        ("SELECT * FROM l JOIN r ON l.k = r.k LIMIT 1", "k k v", limit(joined, 1)),
        ("SELECT * FROM l JOIN r ON l.k = r.k LIMIT 2 OFFSET 1", "k k v", limit(joined, 2, 1)),
        ("SELECT * FROM l, s LIMIT 3 OFFSET 4", "k a", limit(loop, 3, 4)),
        "joins of the rows that are left: a side with a limit has no size, so it is not broadcast",
        ("SELECT * FROM (SELECT k FROM h LIMIT 2) x JOIN r ON x.k = r.k", "k k v", join("inner", two_of_h, r, keys, met).parts),
        ("SELECT * FROM r JOIN (SELECT k FROM h LIMIT 2) x ON r.k = x.k", "k v k", join("inner", r, two_of_h, by_first, lambda k, v, j: same(k, j)).parts),
        (
            "SELECT * FROM r LEFT JOIN (SELECT k FROM h LIMIT 1 OFFSET 1) x ON r.k = x.k",
            "k v k",
            join("left", r, one_of_h, by_first, lambda k, v, j: same(k, j)).parts,
        ),
        (
            "SELECT * FROM (SELECT * FROM h LIMIT 3) x JOIN (SELECT * FROM r LIMIT 2) y ON x.k = y.k",
            "k v k v",
            join("inner", three_of_h, two_of_r, (k, k), lambda k, v, j, w: same(k, j)).parts,
        ),
        ("SELECT * FROM (SELECT a FROM s LIMIT 2) x, (SELECT k FROM l OFFSET 1) y", "a k", short.parts),
        (
            "SELECT k, count(*) FROM (SELECT x.k FROM (SELECT k FROM h LIMIT 2) x JOIN r ON x.k = r.k) q GROUP BY k",
            "k _c1",
            group_in_place(join("inner", two_of_h, r, keys, met).parts, lambda k, j, v: (k,), count()),
        ),
    ]


def unions():
    s, h, g = table("tables/s", int), table("tables/h", int, int), table("tables/g", int, int)
    n, z, t = table("tables/n", int, int), table("tables/z", int), table("tables/t", int, str)
    l, r = source("tables/l", int), source("tables/r", int, int)
    k, v = (lambda k, v: (k,)), (lambda k, v: v)
    one, two, null = [[(1,)]], [[(2,)]], [[(None,)]]
    long = [[(Big(1),)]]
    both = union(h, r.parts)
    once = group(union(h, h), every)
    sums = union(group(h, k, total(v)), group(r.parts, k, total(v)))
    k_of_both = union(select(h, k), select(r.parts, k))
    counted = whole(h, count())
    texts = union(select(t, lambda a, b: (b,)), [[("a",)], [("A",)], [(None,)]])
    left = Side(union(l.parts, select(h, k)), 1)
    wanted = Side(group(union(select(h, k), [[(3,)]]), every), 1)
    pairs = Side(union(one, two), 1)
    first = lambda k: (k,)
    return [
        "UNION ALL: the rows of the left and then those of the right, each as often as it stands there",
        ("SELECT a FROM s UNION ALL SELECT k FROM l", "a", union(s, l.parts)),
        ("SELECT k FROM l UNION ALL SELECT a FROM s", "k", union(l.parts, s)),
        ("SELECT * FROM h UNION ALL SELECT * FROM r", "k v", both),
        ("SELECT * FROM g UNION ALL SELECT * FROM g", "k v", union(g, g)),
        ("SELECT 1 UNION ALL SELECT 1", "_c0", union(one, one)),
        ("SELECT a FROM s WHERE a > 3 UNION ALL SELECT a + 10 FROM s WHERE a > 3", "a", union(where(s, lambda a: a > 3), [[(15,)], [(14,)]])),
        "one side or both without rows",
        ("SELECT a FROM z UNION ALL SELECT a FROM s", "a", union(z, s)),
        ("SELECT a FROM s UNION ALL SELECT a FROM z", "a", union(s, z)),
        ("SELECT a FROM z UNION ALL SELECT a FROM z", "a", []),
        ("SELECT a FROM z UNION SELECT a FROM z", "a", []),
        "the columns are called as on the left",
        ("SELECT 1 AS n UNION ALL SELECT 2 AS m", "n", union(one, two)),
        ("SELECT 1 UNION ALL SELECT k FROM l", "_c0", union(one, l.parts)),
        ("SELECT v, k FROM h UNION ALL SELECT k, v FROM n", "v k", union(select(h, lambda k, v: (v, k)), n)),
        "UNION and UNION DISTINCT: each row once, as groups by all columns; NULL is a value like another",
        ("SELECT 1 UNION SELECT 1", "_c0", group(union(one, one), every)),
        ("SELECT 1 UNION SELECT 2", "_c0", group(union(one, two), every)),
        ("SELECT k FROM h UNION SELECT k FROM r", "k", group(k_of_both, every)),
        ("SELECT * FROM h UNION DISTINCT SELECT * FROM h", "k v", once),
        ("SELECT k FROM g UNION SELECT k FROM n", "k", group(union(select(g, k), select(n, k)), every)),
        ("SELECT * FROM g UNION SELECT * FROM n", "k v", group(union(g, n), every)),
        ("SELECT NULL UNION SELECT NULL", "_c0", group(union(null, null), every)),
        ("SELECT b FROM t UNION SELECT 'a' UNION SELECT 'A' UNION SELECT NULL", "b", group(texts, every)),
        ("SELECT TRUE, k FROM l UNION SELECT FALSE, k FROM l", "_c0 k", group(union([[(True, 1), (True, 2)]], [[(False, 1), (False, 2)]]), every)),
        ("SELECT a FROM s UNION SELECT a FROM s", "a", group(union(s, s), every)),
        "both sides get common types: INT and BIGINT are a BIGINT, NULL is of each type",
        ("SELECT 1 UNION SELECT 1L", "_c0", group(union(long, long), every)),
        ("SELECT k FROM l UNION SELECT count(*) FROM h", "k", group(union(select(l.parts, big(0)), counted), every)),
        ("SELECT count(*) FROM h UNION SELECT k FROM l", "_c0", group(union(counted, select(l.parts, big(0))), every)),
        ("SELECT n + 2147483647 AS sum FROM (SELECT 1 AS n UNION ALL SELECT 2L) q", "sum", [[(2**31,)], [(2**31 + 1,)]]),
        ("SELECT n + 2147483647 AS sum FROM (SELECT 1 AS n UNION ALL SELECT 2) q", "sum", [[(-(2**31),)], [(-(2**31) + 1,)]]),
        ("SELECT n + 2147483647 AS sum FROM (SELECT 1L AS n UNION ALL SELECT 2) q", "sum", [[(2**31,)], [(2**31 + 1,)]]),
        ("SELECT NULL UNION ALL SELECT 1", "_c0", union(null, one)),
        ("SELECT 1 UNION SELECT NULL", "_c0", group(union(one, null), every)),
        ("SELECT NULL, 'x' UNION ALL SELECT TRUE, NULL", "_c0 _c1", [[(None, "x")], [(True, None)]]),
        ("SELECT 1, 2L, 'x' UNION ALL SELECT 3L, 4, NULL", "_c0 _c1 _c2", [[(1, 2, "x")], [(3, 4, None)]]),
        "chains group to the left: a UNION drops what is equal of all before it, and nothing of what comes behind",
        ("SELECT 1 UNION ALL SELECT 1 UNION ALL SELECT 2", "_c0", union(one, one, two)),
        ("SELECT 1 UNION ALL SELECT 1 UNION SELECT 2", "_c0", group(union(one, one, two), every)),
        ("SELECT 1 UNION SELECT 1 UNION ALL SELECT 1", "_c0", union(group(union(one, one), every), one)),
        ("SELECT 1 UNION ALL (SELECT 1 UNION SELECT 1)", "_c0", union(one, group(union(one, one), every))),
        ("(SELECT 1 UNION ALL SELECT 1) UNION (SELECT 2 UNION ALL SELECT 2)", "_c0", group(union(one, one, two, two), every)),
        (
            "SELECT k FROM h UNION SELECT k FROM r UNION SELECT a FROM s",
            "k",
            group(union(group(k_of_both, every), s), every),
        ),
        ("SELECT NULL UNION ALL SELECT 1 UNION ALL SELECT 3000000000", "_c0", [[(None,), (1,), (3000000000,)]]),
        (
            "SELECT 1 UNION SELECT 2 UNION SELECT 3L",
            "_c0",
            group(union(select(group(union(one, two), every), big(0)), [[(Big(3),)]]), every),
        ),
        "LIMIT and OFFSET behind a union are for the whole of it; those of a side stand in parentheses",
        ("SELECT a FROM s UNION ALL SELECT k FROM l LIMIT 3 OFFSET 4", "a", limit(union(s, l.parts), 3, 4)),
        ("SELECT 1 UNION ALL SELECT 2 LIMIT 1", "_c0", limit(union(one, two), 1)),
        ("SELECT 1 UNION SELECT 2 OFFSET 1", "_c0", limit(group(union(one, two), every), None, 1)),
        ("(SELECT a FROM s LIMIT 1) UNION ALL (SELECT k FROM l OFFSET 1)", "a", union(limit(s, 1), limit(l.parts, None, 1))),
        ("(SELECT a FROM s LIMIT 3) UNION ALL (SELECT a FROM s OFFSET 3) LIMIT 4", "a", limit(union(limit(s, 3), limit(s, None, 3)), 4)),
        "in FROM, with and without a name",
        ("SELECT u.k + 1 FROM (SELECT k FROM h UNION ALL SELECT k FROM g) u WHERE k IS NOT NULL", "_c0", union(select(h, lambda k, v: (k + 1,)), [[(6,)]])),
        ("SELECT k FROM (SELECT k FROM h UNION SELECT k FROM r) WHERE k > 1", "k", where(group(k_of_both, every), lambda k: k > 1)),
        "under GROUP BY and DISTINCT",
        ("SELECT k, count(*), sum(v) FROM (SELECT * FROM h UNION ALL SELECT * FROM r) u GROUP BY k", "k _c1 _c2", group(both, k, count(), total(v))),
        ("SELECT count(*), max(v) FROM (SELECT * FROM h UNION ALL SELECT * FROM r) u", "_c0 _c1", whole(both, count(), most(v))),
        ("SELECT count(*) FROM (SELECT a FROM z UNION ALL SELECT a FROM z) u", "_c0", whole(z, count())),
        ("SELECT DISTINCT k FROM (SELECT k FROM h UNION ALL SELECT k FROM r) u", "k", group(k_of_both, every)),
        ("SELECT k, count(*) FROM (SELECT * FROM h UNION SELECT * FROM h) u GROUP BY k", "k _c1", group(once, k, count())),
        "rows that a UNION placed by all its columns stay where they are",
        ("SELECT v, k, count(*) FROM (SELECT * FROM h UNION SELECT * FROM h) u GROUP BY v, k", "v k _c2", group_in_place(once, lambda k, v: (v, k), count())),
        "of groups",
        ("SELECT k, sum(v) FROM h GROUP BY k UNION ALL SELECT k, sum(v) FROM r GROUP BY k", "k _c1", sums),
        ("SELECT k, sum(v) FROM h GROUP BY k UNION SELECT k, sum(v) FROM h GROUP BY k", "k _c1", group(union(group(h, k, total(v)), group(h, k, total(v))), every)),
        ("SELECT count(*) FROM h UNION ALL SELECT count(*) FROM s", "_c0", union(counted, whole(s, count()))),
        "of joins, and joins of unions",
        (
            "SELECT l.k FROM l JOIN r ON l.k = r.k UNION ALL SELECT k FROM l",
            "k",
            union(select(join("inner", l, r, (first, k), lambda k, j, v: same(k, j)).parts, lambda k, j, v: (k,)), l.parts),
        ),
        (
            "SELECT * FROM (SELECT k FROM l UNION ALL SELECT k FROM h) x JOIN r ON x.k = r.k",
            "k k v",
            join("inner", left, r, (first, k), lambda k, j, v: same(k, j)).parts,
        ),
        (
            "SELECT * FROM r SEMI JOIN (SELECT k FROM h UNION SELECT 3) x ON r.k = x.k",
            "k v",
            join("semi", r, wanted, (k, first), lambda k, v, j: same(k, j)).parts,
        ),
        ("SELECT * FROM (SELECT 1 AS x UNION ALL SELECT 2) u, l", "x k", join("cross", pairs, l, None, lambda x, k: True).parts),
    ]


ONE_RUN = {"two-years": fixed(two_years), "distinct-pairs": distinct_pairs}
CASES = {"limit-and-offset": limit_and_offset, "unions": unions}
