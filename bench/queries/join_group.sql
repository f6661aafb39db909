-- orders with their customers, whose table is broadcast, and groups of them
SELECT c.region, count(*) AS orders, sum(o.amount) AS total
FROM orders o JOIN customers c ON o.customer = c.id
GROUP BY c.region
