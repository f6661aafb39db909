-- groups of the rows of a grouped subquery: of each region its customers, and what the best of them has spent
SELECT region, count(*) AS customers, max(spent) AS most
FROM (SELECT region, customer, sum(amount) AS spent FROM orders GROUP BY region, customer) AS per_customer
WHERE spent > 0
GROUP BY region
HAVING count(*) > 1
