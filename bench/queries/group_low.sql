-- 8 groups, with a text as their key
SELECT region, count(*) AS orders, sum(amount) AS total, min(amount) AS least, max(amount) AS most
FROM orders
GROUP BY region
