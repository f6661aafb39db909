-- What each region ordered, the best one first; customers and orders stand in several files.
CREATE TABLE customers (id INT, region STRING) USING csv LOCATION 'examples/region-totals/customers';
CREATE TABLE orders (id INT, customer INT, amount INT) USING csv LOCATION 'examples/region-totals/orders';
SELECT c.region, count(*) AS n, sum(o.amount) AS total
FROM orders o JOIN customers c ON o.customer = c.id
WHERE o.amount >= 20
GROUP BY c.region
ORDER BY total DESC
