-- what each customer has spent, grouped again: by region, all together, by customer and size, and by what was spent
CREATE TABLE orders (region STRING, customer INT, amount BIGINT) USING csv LOCATION 'examples/grouped-subquery/orders';
SELECT region, count(*) AS customers, max(spent) AS most
FROM (SELECT region, customer, sum(amount) AS spent FROM orders GROUP BY region, customer) AS per_customer
GROUP BY region;
SELECT count(*) AS customers, sum(spent) DIV count(*) AS average
FROM (SELECT region, customer, sum(amount) AS spent FROM orders GROUP BY region, customer) AS per_customer;
SELECT customer, large, count(*) AS totals
FROM (SELECT customer, sum(amount) > 50 AS large FROM orders GROUP BY customer) AS sizes
GROUP BY customer, large;
SELECT spent, count(*) AS customers
FROM (SELECT customer, sum(amount) AS spent FROM orders GROUP BY customer)
GROUP BY spent;
