-- two large tables, neither of which is broadcast
SELECT count(*) AS orders, sum(o.amount - p.paid) AS left_over
FROM orders o JOIN payments p ON o.id = p.orderid
