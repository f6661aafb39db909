"""The examples of joins."""
from rules import *


def customers_without_orders():
    customers, orders = source("customers-without-orders/customers", int, str, str), source("customers-without-orders/orders", int, int, int)
    keys = (lambda c, n, t: (c,)), (lambda o, c, a: (c,))
    on = lambda id, name, city, o, customer, a: same(id, customer)
    lone = join("anti", customers, orders, keys, on)
    every = join("left", customers, orders, keys, on)
    return [
        ("id name", select(lone.parts, lambda id, name, city: (id, name))),
        ("id name", select(where(every.parts, lambda id, name, city, o, c, a: o is None), lambda id, name, *more: (id, name))),
        ("city customers", group(lone.parts, lambda id, name, city: (city,), count())),
    ]


def first_orders():
    customers, orders = source("first-orders/customers", int, str, str), source("first-orders/orders", int, int, int)
    key, of_customer = (lambda o, c, a: (c,)), (lambda c, n, t: (c,))
    earlier = lambda o, c, a, p, d, b: same(c, d) and p < o
    first = join("anti", orders, orders, (key, key), earlier).where(lambda o, c, a: c is not None)
    known = lambda id, name, city, o, customer, a: same(id, customer)
    ordered = join("semi", customers, orders, (of_customer, key), known)
    firsts = Side(group(orders.parts, key, least(lambda o, c, a: o)), 2)
    twice = join("semi", customers, firsts, (of_customer, lambda c, o: (c,)), lambda id, name, city, customer, o: same(id, customer))
    large = join("semi", twice, orders, (of_customer, key), lambda id, name, city, o, customer, a: same(id, customer) and a > 30)
    name = lambda id, name, city: (name,)
    return [("id customer amount", first.parts), ("name", select(ordered.parts, name)), ("name", select(large.parts, name))]


def on_or_where():
    customers, orders = source("on-or-where/customers", int, str, str), source("on-or-where/orders", int, int, int)
    keys = (lambda c, n, t: (c,)), (lambda o, c, a: (c,))
    known = lambda id, name, city, o, customer, a: same(id, customer)
    large = lambda id, name, city, o, customer, a: less(30, a)
    in_on = join("left", customers, orders, keys, lambda *row: known(*row) and large(*row))
    every = join("left", customers, orders, keys, known)
    oslo = join("left", customers, orders, keys, lambda *row: known(*row) and same(row[2], "Oslo"))
    items = lambda id, name, city, o, customer, a: (name, o, a)
    return [
        ("name id amount", select(in_on.parts, items)),
        ("name id amount", select(where(every.parts, large), items)),
        ("name id", select(oslo.parts, lambda id, name, city, o, customer, a: (name, o))),
    ]


def self_join():
    employees = source("self-join/employees", int, str, int)
    by_id, by_manager = (lambda id, name, manager: (id,)), (lambda id, name, manager: (manager,))
    led = lambda id, name, manager, other, leader, above: same(manager, other)
    names = lambda id, name, manager, other, leader, above: (name, leader)
    leads = lambda id, name, manager, other, led, above: same(id, above)
    team = lambda id, name, manager, other, colleague, above: same(manager, above) and id < other
    return [
        ("name manager", select(join("inner", employees, employees, (by_manager, by_id), led).parts, names)),
        ("name manager", select(join("left", employees, employees, (by_manager, by_id), led).parts, names)),
        ("name leads", group(join("inner", employees, employees, (by_id, by_manager), leads).parts, lambda id, name, *more: (name,), count())),
        ("name colleague", select(join("inner", employees, employees, (by_manager, by_manager), team).parts, names)),
    ]


def three_tables():
    customers = source("three-tables/customers", int, str, str)
    orders = source("three-tables/orders", int, int, str, int)
    products = source("three-tables/products", str, int)
    of_order, of_customer, of_product = (lambda o, c, p, n: (c,)), (lambda c, n, t: (c,)), (lambda p, m: (p,))
    one = join("inner", orders, customers, (of_order, of_customer), lambda o, c, p, n, id, name, city: same(c, id))
    all_three = join("inner", one, products, (lambda o, c, p, *more: (p,), of_product), lambda o, c, p, n, id, name, city, q, m: same(p, q))
    spent = join("inner", customers, orders, (of_customer, of_order), lambda id, name, city, o, c, p, n: same(id, c))
    costs = join("left", spent, products, (lambda id, name, city, o, c, p, n: (p,), of_product), lambda id, name, city, o, c, p, n, q, m: same(q, p))
    cost = lambda id, name, city, o, c, p, n, q, m: None if m is None else n * m
    both = join("full", orders, products, (lambda o, c, p, n: (p,), of_product), lambda o, c, p, n, q, m: same(p, q))
    return [
        ("name product cost", select(all_three.parts, lambda o, c, p, n, id, name, city, q, m: (name, q, n * m))),
        ("city spent orders", group(costs.parts, lambda id, name, city, *more: (city,), total(cost), count())),
        ("id name", select(where(both.parts, lambda o, c, p, n, q, m: o is None or q is None), lambda o, c, p, n, q, m: (o, q))),
    ]


def of_tables():
    l, r = source("tables/l", int), source("tables/r", int, int)
    n, h = source("tables/n", int, int), source("tables/h", int, int)
    s, z = source("tables/s", int), source("tables/z", int)
    k1, k2 = (lambda k: (k,)), (lambda k, v: (k,))
    more = lambda k, j, v: same(k, j) and v > 7
    nulls = lambda k, v, j, w: same(k, j)
    groups = Side(group(h.parts, k2, total(lambda k, v: v)), 2)
    totals = join("full", groups, Side(group(r.parts, k2, total(lambda k, v: v)), 2), (k2, k2), lambda k, t, j, u: same(k, j))
    pairs = join("cross", l, s, None, lambda k, a: True)
    three = join("inner", Side(pairs.parts, 2), r, None, lambda k, a, j, v: a + v > 12 and k < j)
    summed = join("inner", l, r, (lambda k: (k + 1,), lambda k, v: (v - 6,)), lambda k, j, v: same(k + 1, v - 6))
    two_keys = join("inner", r, h, (lambda k, v: (k, k + 9), lambda k, v: (k, v)), lambda k, v, j, w: same(k, j) and same(w, k + 9))
    return [
        "the condition of ON: keys, and more",
        ("SELECT * FROM l LEFT JOIN r ON l.k = r.k AND r.v > 7", "k k v", join("left", l, r, (k1, k2), more).parts),
        ("SELECT * FROM l FULL JOIN r ON l.k = r.k", "k k v", join("full", l, r, (k1, k2), lambda k, j, v: same(k, j)).parts),
        ("SELECT l.k FROM l LEFT ANTI JOIN r ON l.k = r.k AND r.v > 7", "k", join("anti", l, r, (k1, k2), more).parts),
        "NULL equals nothing, but is the same as NULL",
        ("SELECT x.v FROM n x JOIN n y ON x.k = y.k", "v", select(join("inner", n, n, (k2, k2), nulls).parts, lambda k, v, j, w: (v,))),
        ("SELECT x.v FROM n x JOIN n y ON x.k <=> y.k", "v", [[(1,)]]),
        ("SELECT x.v, y.v FROM n x FULL JOIN n y ON x.k = y.k", "v v", [[(1, None), (None, 1)]]),
        "without ON, and a comma",
        ("SELECT * FROM l JOIN s", "k a", pairs.parts),
        ("SELECT * FROM l, s", "k a", pairs.parts),
        ("SELECT count(*) FROM l, s, r", "_c0", whole([[()] * 30], count())),
        ("SELECT l.k, a, r.k FROM l, s, r WHERE a + v > 12 AND l.k < r.k", "k a k", select(three.parts, lambda k, a, j, v: (k, a, j))),
        ("SELECT count(*) FROM l, z", "_c0", [[(Big(0),)]]),
        ("SELECT * FROM z LEFT JOIN l", "a k", []),
        ("SELECT * FROM l LEFT JOIN z", "k a", [[(1, None), (2, None)]]),
        "keys that are expressions, several keys, and an equality that is none",
        ("SELECT * FROM l JOIN r ON l.k + 1 = r.v - 6", "k k v", summed.parts),
        ("SELECT * FROM r JOIN h ON r.k = h.k AND h.v = r.k + 9", "k v k v", two_keys.parts),
        ("SELECT * FROM l JOIN r ON l.k + r.k = 4 AND r.v < 10", "k k v", join("inner", l, r, None, lambda k, j, v: k + j == 4).parts),
        ("SELECT l.k, v FROM l JOIN r ON l.k = 2 AND v = 9", "k v", [[(2, 9)]]),
        "an INT is brought to a BIGINT that it is compared with",
        (
            "SELECT * FROM l JOIN (SELECT k, count(*) AS c FROM h GROUP BY k) g ON l.k = g.c",
            "k k c",
            join("inner", l, Side(group(h.parts, k2, count()), 2), (lambda k: (Big(k),), lambda k, c: (c,)), lambda k, j, c: same(k, c)).parts,
        ),
        "joins of groups, and groups of joins",
        ("SELECT * FROM (SELECT k, sum(v) AS t FROM h GROUP BY k) x FULL JOIN (SELECT k, sum(v) AS u FROM r GROUP BY k) y ON x.k = y.k", "k t k u", totals.parts),
        ("SELECT l.k, count(*) FROM l JOIN h ON l.k = h.k GROUP BY l.k", "k _c1", group(join("inner", l, h, (k1, k2), lambda k, j, v: same(k, j)).parts, lambda k, j, v: (k,), count())),
        "a semi join shows its left side alone",
        ("SELECT * FROM r LEFT SEMI JOIN h ON r.k = h.k", "k v", join("semi", r, h, (k2, k2), lambda k, v, j, w: same(k, j)).parts),
        ("SELECT * FROM l SEMI JOIN z", "k", []),
        ("SELECT * FROM l ANTI JOIN z", "k", [[(1,), (2,)]]),
    ]


# seven kinds, by hand: with keys alone, with keys and more, and with a condition that has no key
KINDS = {
    "inner": "INNER JOIN", "cross": "CROSS JOIN", "left": "LEFT JOIN", "right": "RIGHT OUTER JOIN",
    "full": "FULL JOIN", "semi": "LEFT SEMI JOIN", "anti": "ANTI JOIN",
}
N = None
CONDITIONS = {
    "a.k = b.k": (lambda k, v, j, w: same(k, j)),
    "a.k = b.k AND v < w AND w <> 101": (lambda k, v, j, w: same(k, j) and v < w and w != 101),
    "v > w + 10": (lambda k, v, j, w: v > w + 10),
}
MATCHES = {
    "a.k = b.k": {(1, 10, 1, 100), (1, 10, 1, 101), (1, 11, 1, 100), (1, 11, 1, 101), (2, 20, 2, 5)},
    "a.k = b.k AND v < w AND w <> 101": {(1, 10, 1, 100), (1, 11, 1, 100)},
    "v > w + 10": {(2, 20, 2, 5), (N, 30, 2, 5), (4, 40, 2, 5)},
}
LEFT_ALONE = {
    "a.k = b.k": {(N, 30), (4, 40)},
    "a.k = b.k AND v < w AND w <> 101": {(2, 20), (N, 30), (4, 40)},
    "v > w + 10": {(1, 10), (1, 11)},
}
RIGHT_ALONE = {
    "a.k = b.k": {(N, 102), (3, 103)},
    "a.k = b.k AND v < w AND w <> 101": {(N, 102), (2, 5), (3, 103), (1, 101)},
    "v > w + 10": {(N, 102), (1, 100), (3, 103), (1, 101)},
}


def by_hand(kind, condition):
    lone = {row + (N, N) for row in LEFT_ALONE[condition]}
    others = {(N, N) + row for row in RIGHT_ALONE[condition]}
    matches = MATCHES[condition]
    left = {(1, 10), (1, 11), (2, 20), (N, 30), (4, 40)}
    return {
        "inner": matches, "cross": matches, "left": matches | lone, "right": matches | others,
        "full": matches | lone | others, "semi": left - LEFT_ALONE[condition], "anti": LEFT_ALONE[condition],
    }[kind]


def by_kind():
    a, b = source("joins-by-kind/a", int, int), source("joins-by-kind/b", int, int)
    none = source("joins-by-kind/none", int, int)
    # a cross join of a table with one row has its rows, in one part, and its size is not known
    unknown = lambda side: Side([side.rows()], side.width)
    table_a, table_b, table_none = "(SELECT a.* FROM a CROSS JOIN one) a", "(SELECT b.* FROM b, one) b", "(SELECT none.* FROM none, one) none"
    keys = (lambda k, v: (k,)), (lambda k, w: (k,))
    cases = []

    def case(kind, left, right, on, names, parts, wanted=None):
        rows = [row for part in parts for row in part]
        assert wanted is None or (len(rows) == len(wanted) and set(rows) == wanted), (kind, left, right, on, rows)
        names = " ".join(names.split()[:2]) if kind in ("semi", "anti") else names
        cases.append((f"SELECT * FROM {left} {KINDS[kind]} {right} ON {on}", names, parts))

    for condition, on in CONDITIONS.items():
        has_keys = condition.startswith("a.k = b.k")
        for kind in KINDS:
            cases.append(f"{KINDS[kind].lower()} on {condition}: as the files' sizes choose" + (", by the left, by sorting, and row by row" if has_keys else ""))
            wanted = by_hand(kind, condition)
            ways = [("a", a, "b", b, condition, keys if has_keys else None)]
            if has_keys:
                ways.append(("a", a, table_b, unknown(b), condition, keys))
                ways.append((table_a, unknown(a), table_b, unknown(b), condition, keys))
                ways.append(("a", a, "b", b, condition.replace("a.k = b.k", "(a.k = b.k OR FALSE)"), None))
            for left, one, right, other, text, by in ways:
                case(kind, left, right, text, "k v k w", join(kind, one, other, by, on).parts, wanted)
    on = lambda k, v, j, w: same(k, j)
    for kind in KINDS:
        cases.append(f"{KINDS[kind].lower()} with no rows on the right, on the left, and on both sides")
        for empty, side in (("none", none), (table_none, unknown(none))):
            left, one = ("a", a) if empty == "none" else (table_a, unknown(a))
            lone = {row + (N, N) for row in a.rows()}
            wanted = {"left": lone, "full": lone, "anti": set(a.rows())}.get(kind, set())
            case(kind, left, empty, "a.k = none.k", "k v k n", join(kind, one, side, keys, on).parts, wanted)
            wanted = {(N, N) + row for row in a.rows()} if kind in ("right", "full") else set()
            case(kind, empty, left, "a.k = none.k", "k n k v", join(kind, side, one, keys, on).parts, wanted)
            other = empty.replace(") none", ") other") if empty != "none" else "none other"
            case(kind, empty, other, "none.k = other.k", "k n k n", join(kind, side, side, keys, on).parts, set())
    return cases


ONE_RUN = {
    "customers-without-orders": customers_without_orders, "first-orders": first_orders, "on-or-where": on_or_where,
    "self-join": self_join, "three-tables": three_tables,
}
CASES = {"joins": of_tables, "joins-by-kind": by_kind}
