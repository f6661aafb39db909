-- orders that no payment of a late day settles
SELECT count(*) AS orders, sum(o.amount) AS total
FROM orders o LEFT ANTI JOIN payments p ON o.id = p.orderid AND p.day > 180
