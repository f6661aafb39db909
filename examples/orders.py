"""The examples of ORDER BY."""
from rules import *

MOST = 2**63 - 1
every = lambda *row: row


def shown(*rows):
    """Rows that stand in the query itself, each in a part of its own."""
    return [[row] for row in rows]


def group_and_order():
    g, k = table("tables/g", int, int), (lambda k, *more: k)
    return [("k _c1", sort(group(g, lambda k, v: (k,), total(lambda k, v: v)), asc(k)))]


def order_under_limit():
    s = table("tables/s", int)
    return [("a", limit(where(sort(s, asc(lambda a: a)), lambda a: a > 1), 2))]


def region_totals():
    customers, sold = source("region-totals/customers", int, str), source("region-totals/orders", int, int, int)
    keys = (lambda id, customer, amount: (customer,)), (lambda id, region: (id,))
    large = sold.where(lambda id, customer, amount: less(19, amount))
    both = join("inner", large, customers, keys, lambda o, customer, amount, id, region: same(customer, id))
    regions = group(both.parts, lambda o, customer, amount, id, region: (region,), count(), total(lambda o, customer, amount, *more: amount))
    return [("region n total", sort(regions, desc(lambda region, n, t: t)))]


def top_ten():
    sold = table("top-ten/sold", str, str, int)
    seller, amount = (lambda seller, region, amount: (seller,)), (lambda seller, region, amount: amount)
    totals = group(sold, seller, total(amount))
    by_total = desc(lambda name, t: t), asc(lambda name, t: name)
    north = group(where(sold, lambda seller, region, amount: region == "north"), seller, total(amount))
    counts = group(sold, seller, count(), most(amount))
    return [
        ("seller total", limit(sort(totals, *by_total), 10)),
        ("seller total", limit(sort(north, *by_total), 3)),
        ("seller", select(limit(sort(counts, desc(lambda name, n, m: n), desc(lambda name, n, m: m), asc(lambda name, n, m: name)), 5), lambda name, n, m: (name,))),
        ("least_of_the_ten", whole(limit(sort(totals, *by_total), 10), least(lambda name, t: t))),
    ]


def pages():
    products = table("pages/products", str, int, flag)
    by_price = asc(lambda name, price, sold: price), asc(lambda name, price, sold: name)
    dear = desc(lambda name, price, sold: price), asc(lambda name, price, sold: name)
    listed = select(sort(products, *by_price), lambda name, price, sold: (name, price))
    left = select(sort(where(products, lambda name, price, sold: sold is not True), *dear), lambda name, price, sold: (name,))
    return [
        ("name price", limit(listed, 4)),
        ("name price", limit(listed, 4, 4)),
        ("name price", limit(listed, 4, 8)),
        ("name price", limit(listed, 4, 12)),
        ("name", limit(left, 3, 3)),
    ]


def made_orders():
    """The orders that examples/thousand-orders/make makes: of order i the line, in the file of the rest that i leaves by 7."""
    files = [[] for _ in range(7)]
    for i in range(1000):
        amount = None if i % 13 == 5 else i * i * 31 % 1009 % 250 - 50
        files[i % 7].append((i, f"customer {i * 17 % 41}", amount))
    return files


def thousand_orders():
    orders = made_orders()
    i, customer, amount = (lambda i, c, a: i), (lambda i, c, a: c), (lambda i, c, a: a)
    by_amount = sort(orders, desc(amount, nulls_last=False), asc(i))
    totals = group(orders, lambda i, c, a: (c,), count(), total(amount))
    return [
        "by two keys, which no two rows have alike",
        ("SELECT id, amount FROM orders ORDER BY amount DESC NULLS FIRST, id", "id amount", select(by_amount, lambda i, c, a: (i, a))),
        ("SELECT customer, id FROM orders ORDER BY customer, id DESC", "customer id", select(sort(orders, asc(customer), desc(i)), lambda i, c, a: (c, i))),
        "by one key; rows that tie are the same",
        ("SELECT amount FROM orders ORDER BY amount NULLS LAST", "amount", sort(select(orders, lambda i, c, a: (a,)), asc(lambda a: a, nulls_last=True))),
        "what stands in the middle, and at both ends",
        ("SELECT id FROM orders ORDER BY amount, id LIMIT 5 OFFSET 498", "id", select(limit(sort(orders, asc(amount), asc(i)), 5, 498), lambda i, c, a: (i,))),
        ("SELECT id FROM orders ORDER BY id LIMIT 3", "id", select(limit(sort(orders, asc(i)), 3), lambda i, c, a: (i,))),
        ("SELECT id FROM orders ORDER BY id OFFSET 997", "id", select(limit(sort(orders, asc(i)), None, 997), lambda i, c, a: (i,))),
        "of the sorted rows, and of groups",
        (
            "SELECT count(*), sum(id) FROM (SELECT id FROM orders ORDER BY amount, id LIMIT 100) q",
            "_c0 _c1",
            whole(limit(sort(orders, asc(amount), asc(i)), 100), count(), total(i)),
        ),
        (
            "SELECT customer, count(*), sum(amount) AS total FROM orders GROUP BY customer ORDER BY total DESC, customer",
            "customer _c1 total",
            sort(totals, desc(lambda c, n, t: t), asc(lambda c, n, t: c)),
        ),
    ]


def one_key(s, orders):
    a, i = (lambda a: a), (lambda i, c, m, p: i)
    amounts, by_amount = select(orders, lambda i, c, m, p: (m,)), (lambda m: m)
    ids = lambda parts: select(parts, lambda i, c, m, p: (i,))
    return [
        "one key: upwards, unless DESC stands there; numbers by their value",
        ("SELECT a FROM s ORDER BY a", "a", sort(s, asc(a))),
        ("SELECT a FROM s ORDER BY a ASC", "a", sort(s, asc(a))),
        ("SELECT a FROM s ORDER BY a DESC", "a", sort(s, desc(a))),
        ("SELECT id FROM orders ORDER BY id", "id", ids(sort(orders, asc(i)))),
        ("SELECT id FROM orders ORDER BY id DESC", "id", ids(sort(orders, desc(i)))),
        ("SELECT * FROM orders ORDER BY id", "id customer amount paid", sort(orders, asc(i))),
        "NULLs stand first upwards and last downwards, unless NULLS says where; rows that tie are the same here",
        ("SELECT amount FROM orders ORDER BY amount", "amount", sort(amounts, asc(by_amount))),
        ("SELECT amount FROM orders ORDER BY amount DESC", "amount", sort(amounts, desc(by_amount))),
        ("SELECT amount FROM orders ORDER BY amount NULLS FIRST", "amount", sort(amounts, asc(by_amount, nulls_last=False))),
        ("SELECT amount FROM orders ORDER BY amount NULLS LAST", "amount", sort(amounts, asc(by_amount, nulls_last=True))),
        ("SELECT amount FROM orders ORDER BY amount ASC NULLS LAST", "amount", sort(amounts, asc(by_amount, nulls_last=True))),
        ("SELECT amount FROM orders ORDER BY amount DESC NULLS FIRST", "amount", sort(amounts, desc(by_amount, nulls_last=False))),
        ("SELECT amount FROM orders ORDER BY amount DESC NULLS LAST", "amount", sort(amounts, desc(by_amount, nulls_last=True))),
    ]


def of_each_type(orders):
    i, customer, paid = (lambda i, c, m, p: i), (lambda i, c, m, p: c), (lambda i, c, m, p: p)
    paid_ids, named = (lambda parts: select(parts, lambda i, c, m, p: (p, i))), (lambda parts: select(parts, lambda i, c, m, p: (c, i)))
    words = shown(("z",), ("é",), ("e",), ("Z",), ("",), ("ez",), (None,), ("10",), ("9",), ("e z",))
    numbers = shown((MOST,), (-MOST - 1,), (0,), (None,), (-1,), (2**31,))
    of_words = " UNION ALL SELECT ".join("NULL" if word is None else f"'{word}'" for part in words for word, in part)
    of_numbers = "9223372036854775807 AS n UNION ALL SELECT -9223372036854775808 UNION ALL SELECT 0 UNION ALL SELECT NULL UNION ALL SELECT -1 UNION ALL SELECT 2147483648"
    return [
        "truths: false before true",
        ("SELECT paid, id FROM orders ORDER BY paid, id", "paid id", paid_ids(sort(orders, asc(paid), asc(i)))),
        ("SELECT paid, id FROM orders ORDER BY paid DESC, id DESC", "paid id", paid_ids(sort(orders, desc(paid), desc(i)))),
        "texts by their bytes: capitals before small letters, what is not ASCII behind both, a text before what goes on behind it",
        ("SELECT customer, id FROM orders ORDER BY customer, id", "customer id", named(sort(orders, asc(customer), asc(i)))),
        ("SELECT customer, id FROM orders ORDER BY customer DESC NULLS FIRST, id", "customer id", named(sort(orders, desc(customer, nulls_last=False), asc(i)))),
        (f"SELECT word FROM (SELECT {of_words.replace(' UNION', ' AS word UNION', 1)}) w ORDER BY word", "word", sort(words, asc(lambda w: w))),
        (
            "SELECT id FROM orders ORDER BY CAST(id AS STRING)",
            "id",
            select(sort(orders, asc(lambda i, c, m, p: str(i))), lambda i, c, m, p: (i,)),
        ),
        "BIGINTs, up to both ends",
        (f"SELECT n FROM (SELECT {of_numbers}) q ORDER BY n", "n", sort(numbers, asc(lambda n: n))),
        (f"SELECT n FROM (SELECT {of_numbers}) q ORDER BY n DESC", "n", sort(numbers, desc(lambda n: n))),
    ]


def several_keys(s, g, orders):
    i, amount, paid = (lambda i, c, m, p: i), (lambda i, c, m, p: m), (lambda i, c, m, p: p)
    both = lambda parts: select(parts, lambda i, c, m, p: (m, i))
    a, same_for_all = (lambda a: a), asc(lambda a: 0)
    return [
        "several keys: where the first ties, the next one, each in its own way",
        ("SELECT amount, id FROM orders ORDER BY amount, id", "amount id", both(sort(orders, asc(amount), asc(i)))),
        ("SELECT amount, id FROM orders ORDER BY amount DESC, id", "amount id", both(sort(orders, desc(amount), asc(i)))),
        ("SELECT amount, id FROM orders ORDER BY amount NULLS LAST, id DESC", "amount id", both(sort(orders, asc(amount, nulls_last=True), desc(i)))),
        (
            "SELECT paid, amount, id FROM orders ORDER BY paid DESC NULLS FIRST, amount NULLS LAST, id DESC",
            "paid amount id",
            select(sort(orders, desc(paid, nulls_last=False), asc(amount, nulls_last=True), desc(i)), lambda i, c, m, p: (p, m, i)),
        ),
        ("SELECT k, v FROM g ORDER BY k NULLS LAST, v DESC", "k v", sort(g, asc(lambda k, v: k, nulls_last=True), desc(lambda k, v: v))),
        "a key that no rows have alike decides alone; one that stands there again decides nothing",
        ("SELECT id FROM orders ORDER BY id, amount DESC", "id", select(sort(orders, asc(i), desc(amount)), lambda i, c, m, p: (i,))),
        ("SELECT amount, id FROM orders ORDER BY amount, amount DESC, id", "amount id", both(sort(orders, asc(amount), desc(amount), asc(i)))),
        "all rows tie: under constants, which are no positions where they are more than a number alone",
        ("SELECT 'same' AS word FROM s ORDER BY word", "word", select(s, lambda a: ("same",))),
        ("SELECT a % 1 AS none FROM s ORDER BY none DESC", "none", select(s, lambda a: (0,))),
        ("SELECT a FROM s ORDER BY a % 1, a", "a", sort(s, same_for_all, asc(a))),
        ("SELECT a FROM s ORDER BY NULL, 'x', TRUE, 1 + 0, +1 DESC, a DESC", "a", sort(s, same_for_all, desc(a))),
        ("SELECT amount FROM orders WHERE amount = 60 ORDER BY amount", "amount", shown((60,), (60,))),
    ]


def by_outputs(s, h, orders):
    i, amount, customer = (lambda i, *more: i), (lambda i, c, m, p: m), (lambda i, c, m, p: c)
    pairs = join("cross", Side(h, 2), Side(s, 1), None, lambda k, v, a: True).parts
    a, k, v = (lambda a: a), (lambda k, v: k), (lambda k, v: v)
    last = lambda k, v, a: a
    turned = lambda parts: select(parts, lambda k, v: (v, k))
    negative = lambda parts: select(parts, lambda a: (-a,))
    return [
        "positions count the output columns from 1, asterisks spread out; parentheses do not matter",
        ("SELECT id, amount FROM orders ORDER BY 2, 1", "id amount", select(sort(orders, asc(amount), asc(i)), lambda i, c, m, p: (i, m))),
        ("SELECT amount, id FROM orders ORDER BY 1 DESC, ((2))", "amount id", select(sort(orders, desc(amount), asc(i)), lambda i, c, m, p: (m, i))),
        ("SELECT *, id FROM orders ORDER BY 5 DESC", "id customer amount paid id", select(sort(orders, desc(i)), lambda i, *more: (i, *more, i))),
        ("SELECT * FROM h, s ORDER BY 3 DESC, 2L", "k v a", sort(pairs, desc(last), asc(lambda k, v, a: v))),
        ("SELECT s.a, h.* FROM h, s ORDER BY 3, 1 DESC", "a k v", select(sort(pairs, asc(lambda k, v, a: v), desc(last)), lambda k, v, a: (a, k, v))),
        ("SELECT a + 1, -a FROM s ORDER BY 2", "_c0 _c1", select(sort(s, desc(a)), lambda a: (a + 1, -a))),
        "output columns by their names, those too that have no alias; an alias goes before the column of its name",
        ("SELECT -a AS n FROM s ORDER BY n", "n", negative(sort(s, desc(a)))),
        ("SELECT a + 1 FROM s ORDER BY _c0 DESC", "_c0", select(sort(s, desc(a)), lambda a: (a + 1,))),
        ("SELECT -a AS a FROM s ORDER BY a", "a", negative(sort(s, desc(a)))),
        ("SELECT -a AS a FROM s ORDER BY -a", "a", negative(sort(s, asc(a)))),
        ("SELECT -a AS a FROM s ORDER BY s.a", "a", negative(sort(s, asc(a)))),
        ("SELECT v AS k, k AS v FROM h ORDER BY k DESC", "k v", turned(sort(h, desc(v)))),
        ("SELECT v AS k, k AS v FROM h ORDER BY h.k, k", "k v", turned(sort(h, asc(k), asc(v)))),
        ("SELECT v AS k, k AS v FROM h ORDER BY v, h.v DESC", "k v", turned(sort(h, asc(k), desc(v)))),
        ("SELECT A FROM s ORDER BY `A`, S.a", "a", sort(s, asc(a))),
        "expressions over them",
        ("SELECT a AS n FROM s ORDER BY (n - 3) * (n - 3), n", "n", sort(s, asc(lambda a: (a - 3) ** 2), asc(a))),
        ("SELECT a FROM s ORDER BY a % 2, a DESC", "a", sort(s, asc(lambda a: a % 2), desc(a))),
        ("SELECT a FROM s ORDER BY a > 2 DESC, a", "a", sort(s, desc(lambda a: a > 2), asc(a))),
        ("SELECT a FROM s ORDER BY CASE WHEN a = 3 THEN 0 ELSE a END", "a", sort(s, asc(lambda a: 0 if a == 3 else a))),
        ("SELECT a FROM s ORDER BY 12 DIV (a - 3), a", "a", sort(s, asc(lambda a: None if a == 3 else int(12 / (a - 3))), asc(a))),
        ("SELECT id, amount FROM orders ORDER BY coalesce(amount, 0), id", "id amount", select(sort(orders, asc(lambda i, c, m, p: m or 0), asc(i)), lambda i, c, m, p: (i, m))),
        (
            "SELECT id, customer FROM orders ORDER BY length(customer) DESC, customer, id",
            "id customer",
            select(sort(orders, desc(lambda i, c, m, p: c and len(c)), asc(customer), asc(i)), lambda i, c, m, p: (i, c)),
        ),
        "a sum that goes round is sorted as what it is",
        ("SELECT a FROM s ORDER BY a + 2147483644", "a", sort(s, asc(lambda a: (a + 2147483644 + 2**31) % 2**32 - 2**31))),
    ]


def hidden(s, h, t, orders):
    i, amount = (lambda i, c, m, p: i), (lambda i, c, m, p: m)
    ids = lambda parts: select(parts, lambda i, c, m, p: (i,))
    k, v = (lambda k, v: k), (lambda k, v: v)
    return [
        "columns of FROM that are not selected",
        ("SELECT id FROM orders ORDER BY amount DESC, id", "id", ids(sort(orders, desc(amount), asc(i)))),
        ("SELECT customer FROM orders ORDER BY id", "customer", select(sort(orders, asc(i)), lambda i, c, m, p: (c,))),
        ("SELECT v FROM h ORDER BY k, v DESC", "v", select(sort(h, asc(k), desc(v)), lambda k, v: (v,))),
        ("SELECT a FROM t ORDER BY b NULLS LAST", "a", select(sort(t, asc(lambda a, b: b, nulls_last=True)), lambda a, b: (a,))),
        ("SELECT o.paid FROM orders AS o ORDER BY o.amount NULLS LAST, o.id", "paid", select(sort(orders, asc(amount, nulls_last=True), asc(i)), lambda i, c, m, p: (p,))),
        ("SELECT 1 AS one FROM h ORDER BY v", "one", [[(1,)] * 3]),
        ("SELECT id FROM orders WHERE paid ORDER BY amount DESC, orders.id", "id", ids(sort(where(orders, lambda i, c, m, p: p is True), desc(amount), asc(i)))),
        "expressions over them, and the same key twice",
        (
            "SELECT id FROM orders ORDER BY amount + id, id",
            "id",
            ids(sort(orders, asc(lambda i, c, m, p: None if m is None else m + i), asc(i))),
        ),
        ("SELECT id FROM orders ORDER BY amount, amount DESC, amount + 0, id", "id", ids(sort(orders, asc(amount), asc(i)))),
        ("SELECT k + v AS sum FROM h ORDER BY k - v", "sum", select(sort(h, asc(lambda k, v: k - v)), lambda k, v: (k + v,))),
        "an output column where its name is plain, and a column of FROM beside it",
        ("SELECT -k AS k FROM h ORDER BY k, h.v DESC", "k", select(sort(h, desc(k), desc(v)), lambda k, v: (-k,))),
        ("SELECT a FROM (SELECT a, -a AS b FROM s) q ORDER BY b", "a", sort(s, desc(lambda a: a))),
    ]


def of_groups(s, h, g, z, orders):
    k, v = (lambda k, *more: k), (lambda k, v: v)
    by_k, by_customer = (lambda k, v: (k,)), (lambda i, c, m, p: (c,))
    one, two = (lambda a, b: a), (lambda a, b: b)
    odd = lambda a: (a % 2,)
    amount = lambda i, c, m, p: m
    spent = group(orders, by_customer, total(amount), count())
    first_of = lambda parts: select(parts, lambda k, *more: (k,))
    return [
        "groups by their keys and calls, selected or not",
        ("SELECT k, sum(v) FROM g GROUP BY k ORDER BY k", "k _c1", sort(group(g, by_k, total(v)), asc(k))),
        ("SELECT k FROM h GROUP BY k ORDER BY max(v) DESC", "k", first_of(sort(group(h, by_k, most(v)), desc(two)))),
        ("SELECT k, sum(v) FROM h GROUP BY k ORDER BY 2", "k _c1", sort(group(h, by_k, total(v)), asc(two))),
        ("SELECT k, sum(v) AS total FROM h GROUP BY k ORDER BY total DESC", "k total", sort(group(h, by_k, total(v)), desc(two))),
        ("SELECT k FROM h GROUP BY k ORDER BY count(*) DESC, k", "k", first_of(sort(group(h, by_k, count()), desc(two), asc(k)))),
        ("SELECT count(*) FROM h GROUP BY k ORDER BY k DESC", "_c0", select(sort(group(h, by_k, count()), desc(k)), lambda k, n: (n,))),
        ("SELECT k FROM h GROUP BY k HAVING sum(v) > 1 ORDER BY min(v)", "k", first_of(sort(group(h, by_k, least(v)), asc(two)))),
        (
            "SELECT k, max(v) - min(v) AS width FROM h GROUP BY k ORDER BY max(v) - min(v), k",
            "k width",
            sort(select(group(h, by_k, most(v), least(v)), lambda k, m, l: (k, m - l)), asc(two), asc(one)),
        ),
        ("SELECT a % 2 AS odd, sum(a) FROM s GROUP BY a % 2 ORDER BY odd", "odd _c1", sort(group(s, odd, total(lambda a: a)), asc(one))),
        ("SELECT sum(a) FROM s GROUP BY a % 2 ORDER BY a % 2 DESC", "_c0", select(sort(group(s, odd, total(lambda a: a)), desc(one)), lambda o, t: (t,))),
        (
            "SELECT customer, sum(amount), count(*) AS orders FROM orders GROUP BY customer ORDER BY sum(amount) DESC, customer",
            "customer _c1 orders",
            sort(spent, desc(lambda c, t, n: t), asc(k)),
        ),
        (
            "SELECT customer FROM orders GROUP BY customer ORDER BY count(*) DESC, sum(amount) NULLS LAST, customer NULLS LAST",
            "customer",
            first_of(sort(spent, desc(lambda c, t, n: n), asc(lambda c, t, n: t, nulls_last=True), asc(k, nulls_last=True))),
        ),
        "without keys there is one row, whatever stands in ORDER BY",
        ("SELECT count(*) FROM h ORDER BY 1", "_c0", whole(h, count())),
        ("SELECT 'one' AS row FROM h ORDER BY max(v), min(k)", "row", [[("one",)]]),
        ("SELECT count(*) AS n FROM z ORDER BY max(a)", "n", whole(z, count())),
        "DISTINCT, by what it shows",
        ("SELECT DISTINCT k FROM h ORDER BY k DESC", "k", sort(group(h, by_k), desc(k))),
        ("SELECT DISTINCT k, v FROM g ORDER BY v DESC", "k v", sort(group(g, every), desc(two))),
        ("SELECT DISTINCT a % 2 AS odd FROM s ORDER BY -odd", "odd", shown((1,), (0,))),
        ("SELECT DISTINCT customer FROM orders ORDER BY customer", "customer", sort(group(select(orders, by_customer), every), asc(k))),
        ("SELECT DISTINCT count(*) AS n FROM h GROUP BY k ORDER BY n DESC", "n", shown((2,), (1,))),
        "groups of rows in order, in order again",
        ("SELECT k, count(*) FROM (SELECT k FROM h ORDER BY v DESC) q GROUP BY k ORDER BY k", "k _c1", sort(group(h, by_k, count()), asc(k))),
    ]


def of_joins(s, h):
    l, r = source("tables/l", int), source("tables/r", int, int)
    n = source("tables/n", int, int)
    keys = (lambda k: (k,)), (lambda k, v: (k,))
    on = lambda k, j, v: same(k, j)
    inner, full = join("inner", l, r, keys, on).parts, join("full", l, r, keys, on).parts
    pairs = join("cross", l, Side(s, 1), None, lambda k, a: True).parts
    k, j, v = (lambda k, j, v: k), (lambda k, j, v: j), (lambda k, j, v: v)
    lone = join("anti", r, l, (keys[1], keys[0]), lambda j, v, k: same(j, k)).parts
    nulls = join("full", n, n, (keys[1], keys[1]), lambda k, v, j, w: same(k, j)).parts
    lefts = join("left", r, l, (keys[1], keys[0]), lambda j, v, k: same(j, k)).parts
    return [
        "joins",
        ("SELECT * FROM l JOIN r ON l.k = r.k ORDER BY v DESC", "k k v", sort(inner, desc(v))),
        ("SELECT l.k FROM l JOIN r ON l.k = r.k ORDER BY k DESC", "k", select(sort(inner, desc(k)), lambda k, j, v: (k,))),
        ("SELECT v FROM l JOIN r ON l.k = r.k ORDER BY r.k DESC", "v", select(sort(inner, desc(j)), lambda k, j, v: (v,))),
        ("SELECT * FROM l FULL JOIN r ON l.k = r.k ORDER BY l.k DESC NULLS FIRST", "k k v", sort(full, desc(k, nulls_last=False))),
        ("SELECT r.* FROM r LEFT JOIN l ON l.k = r.k ORDER BY l.k NULLS LAST", "k v", select(sort(lefts, asc(v, nulls_last=True)), lambda j, v, k: (j, v))),
        ("SELECT k, a FROM l, s ORDER BY a DESC, k", "k a", sort(pairs, desc(lambda k, a: a), asc(lambda k, a: k))),
        ("SELECT * FROM r ANTI JOIN l ON r.k = l.k ORDER BY v", "k v", sort(lone, asc(lambda j, v: v))),
        ("SELECT v FROM r SEMI JOIN l ON r.k = l.k ORDER BY r.k DESC", "v", shown((8,), (7,))),
        ("SELECT x.v, y.v FROM n x FULL JOIN n y ON x.k = y.k ORDER BY x.v, y.v", "v v", select(sort(nulls, asc(lambda k, v, j, w: v)), lambda k, v, j, w: (v, w))),
        "joins of rows in order, in order again",
        (
            "SELECT x.k, v FROM (SELECT k FROM l ORDER BY k DESC) x JOIN (SELECT * FROM r ORDER BY v DESC LIMIT 2) y ON x.k <= y.k ORDER BY x.k, v",
            "k v",
            shown((1, 8), (1, 9), (2, 8), (2, 9)),
        ),
        (
            "SELECT x.k, v FROM (SELECT k FROM h ORDER BY v) x JOIN (SELECT * FROM r ORDER BY v DESC) y ON x.k = y.k ORDER BY 2 DESC, 1",
            "k v",
            shown((2, 8), (1, 7), (1, 7)),
        ),
    ]


def of_unions(s, h, l):
    r = table("tables/r", int, int)
    a, k = (lambda a: a), (lambda k, v: k)
    low, high = limit(sort(s, asc(a)), 2), limit(sort(s, desc(a)), 2)
    return [
        "ORDER BY behind a union is for the whole of it; that of a side stands in parentheses",
        ("SELECT a FROM s UNION ALL SELECT k FROM l ORDER BY a", "a", sort(union(s, l), asc(a))),
        ("SELECT a FROM s UNION SELECT k FROM l ORDER BY 1 DESC", "a", sort(group(union(s, l), every), desc(a))),
        ("SELECT a FROM s WHERE a IN (1, 2) UNION SELECT 7 ORDER BY a OFFSET 1", "a", shown((2,), (7,))),
        ("SELECT k, v FROM h UNION ALL SELECT * FROM r ORDER BY k, v DESC", "k v", sort(union(h, r), asc(k), desc(lambda k, v: v))),
        ("SELECT 1 AS n UNION ALL SELECT 2L UNION ALL SELECT NULL ORDER BY n DESC", "n", shown((2,), (1,), (None,))),
        ("SELECT 1 UNION ALL SELECT 3 UNION ALL SELECT 2 ORDER BY -_c0", "_c0", shown((3,), (2,), (1,))),
        ("(SELECT a FROM s ORDER BY a LIMIT 2) UNION ALL (SELECT a FROM s ORDER BY a DESC LIMIT 2) ORDER BY a", "a", sort(union(low, high), asc(a))),
        ("(SELECT a FROM s ORDER BY a LIMIT 2) UNION (SELECT k FROM l) ORDER BY a", "a", shown((1,), (2,))),
        ("SELECT a FROM s UNION ALL (SELECT k FROM l ORDER BY k DESC LIMIT 1) ORDER BY a LIMIT 3", "a", limit(sort(union(s, shown((2,))), asc(a)), 3)),
    ]


def in_each_other(s, h):
    a = lambda a: a
    up, down = sort(s, asc(a)), sort(s, desc(a))
    return [
        "queries in parentheses: one order and cut behind the other",
        ("(SELECT a FROM s) ORDER BY a", "a", up),
        ("(SELECT a FROM s ORDER BY a) ORDER BY a DESC", "a", down),
        ("(SELECT a FROM s ORDER BY a DESC LIMIT 3) ORDER BY a", "a", sort(limit(down, 3), asc(a))),
        ("((SELECT a FROM s ORDER BY a LIMIT 4) ORDER BY a DESC LIMIT 3) ORDER BY a", "a", shown((2,), (3,), (4,))),
        ("(SELECT a FROM s ORDER BY a OFFSET 1) LIMIT 2", "a", limit(limit(up, None, 1), 2)),
        "subqueries: WHERE, expressions and LIMIT keep the order of what stands below",
        ("SELECT a FROM (SELECT a FROM s ORDER BY a) q", "a", up),
        ("SELECT a FROM (SELECT a FROM s ORDER BY a) WHERE a > 1 LIMIT 2", "a", limit(where(up, lambda a: a > 1), 2)),
        ("SELECT a + 10 AS n FROM (SELECT a FROM s ORDER BY a DESC) q WHERE a > 2", "n", select(where(down, lambda a: a > 2), lambda a: (a + 10,))),
        ("SELECT v FROM (SELECT * FROM h ORDER BY k DESC, v) q", "v", shown((20,), (5,), (10,))),
        ("SELECT k FROM (SELECT k FROM h ORDER BY v) q OFFSET 1", "k", shown((1,), (2,))),
        ("SELECT a FROM (SELECT a FROM (SELECT a FROM s ORDER BY a DESC) p) q LIMIT 4", "a", limit(down, 4)),
        "which are sorted again, as they are or otherwise",
        ("SELECT a FROM (SELECT a FROM s ORDER BY a) q ORDER BY a", "a", up),
        ("SELECT a FROM (SELECT a FROM s ORDER BY a) q ORDER BY a DESC", "a", down),
        ("SELECT a AS n FROM (SELECT a FROM s ORDER BY a) q ORDER BY n", "n", up),
        ("SELECT a FROM (SELECT a FROM s ORDER BY a LIMIT 3) q ORDER BY a DESC", "a", sort(limit(up, 3), desc(a))),
        "and groups of the rows that are left",
        ("SELECT sum(a), count(*) FROM (SELECT a FROM s ORDER BY a DESC LIMIT 2) q", "_c0 _c1", whole(limit(down, 2), total(a), count())),
        ("SELECT DISTINCT odd FROM (SELECT a % 2 AS odd FROM s ORDER BY a LIMIT 3) q ORDER BY odd DESC", "odd", shown((1,), (0,))),
    ]


def with_limits(s, z, orders):
    a, i, amount = (lambda a: a), (lambda i, c, m, p: i), (lambda i, c, m, p: m)
    up, down = sort(s, asc(a)), sort(s, desc(a))
    by_amount = select(sort(orders, desc(amount), asc(i)), lambda i, c, m, p: (i,))
    amounts = sort(select(orders, lambda i, c, m, p: (m,)), desc(lambda m: m))
    return [
        "LIMIT and OFFSET cut the order",
        ("SELECT a FROM s ORDER BY a LIMIT 2", "a", limit(up, 2)),
        ("SELECT a FROM s ORDER BY a DESC LIMIT 1", "a", limit(down, 1)),
        ("SELECT a FROM s ORDER BY a OFFSET 3", "a", limit(up, None, 3)),
        ("SELECT a FROM s ORDER BY a LIMIT 2 OFFSET 1", "a", limit(up, 2, 1)),
        ("SELECT a FROM s ORDER BY a DESC LIMIT 2 OFFSET 4", "a", limit(down, 2, 4)),
        ("SELECT a FROM s ORDER BY a LIMIT 0", "a", []),
        ("SELECT a FROM s ORDER BY a LIMIT 9", "a", up),
        ("SELECT a FROM s ORDER BY a OFFSET 5", "a", []),
        (f"SELECT a FROM s ORDER BY a LIMIT {MOST} OFFSET 2", "a", limit(up, MOST, 2)),
        (f"SELECT a FROM s ORDER BY a LIMIT {MOST} OFFSET {MOST}", "a", []),
        ("SELECT id FROM orders ORDER BY amount DESC, id LIMIT 3", "id", limit(by_amount, 3)),
        ("SELECT id FROM orders ORDER BY amount DESC, id LIMIT 3 OFFSET 3", "id", limit(by_amount, 3, 3)),
        ("SELECT amount FROM orders ORDER BY amount DESC LIMIT 1", "amount", limit(amounts, 1)),
        "no row, and one",
        ("SELECT a FROM z ORDER BY a", "a", z),
        ("SELECT a FROM z ORDER BY a DESC LIMIT 1", "a", z),
        ("SELECT 'x' AS x FROM z ORDER BY a", "x", []),
        ("SELECT a FROM s WHERE a > 5 ORDER BY a", "a", []),
        ("SELECT a, count(*) FROM z GROUP BY a ORDER BY count(*)", "a _c1", []),
        ("SELECT a FROM z UNION SELECT a FROM z ORDER BY a", "a", []),
        ("SELECT k FROM l WHERE k = 2 ORDER BY k", "k", shown((2,))),
        ("SELECT 1 ORDER BY 1", "_c0", shown((1,))),
        ("SELECT 1 AS x, 'y' AS y ORDER BY y DESC, x", "x y", shown((1, "y"))),
        ("SELECT 1 WHERE FALSE ORDER BY _c0", "_c0", []),
        ("SELECT 1 AS x ORDER BY x OFFSET 1", "x", []),
    ]


def orders():
    s, h, g = table("tables/s", int), table("tables/h", int, int), table("tables/g", int, int)
    l, t, z = table("tables/l", int), table("tables/t", int, str), table("tables/z", int)
    sold = table("orders/orders", int, str, int, flag)
    return [
        *one_key(s, sold), *of_each_type(sold), *several_keys(s, g, sold), *by_outputs(s, h, sold), *hidden(s, h, t, sold),
        *of_groups(s, h, g, z, sold), *of_joins(s, h), *of_unions(s, h, l), *in_each_other(s, h), *with_limits(s, z, sold),
    ]


ONE_RUN = {
    "group-and-order": fixed(group_and_order), "order-under-limit": fixed(order_under_limit), "region-totals": fixed(region_totals),
    "top-ten": fixed(top_ten), "pages": fixed(pages),
}
CASES = {"orders": fixed(orders), "thousand-orders": fixed(thousand_orders)}
