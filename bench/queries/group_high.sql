-- some 200,000 groups, with two numbers as their key
SELECT customer, item, count(*) AS orders, sum(amount) AS total
FROM orders
GROUP BY customer, item
