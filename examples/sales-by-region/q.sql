-- orders of each region, and what was paid there; then all of them
CREATE TABLE orders (id INT, region STRING, amount BIGINT, paid BOOLEAN) USING csv LOCATION 'examples/sales-by-region/orders';
SELECT region, count(*) AS orders, sum(amount) AS total, min(amount) AS least, max(amount) AS most FROM orders GROUP BY region;
SELECT region, sum(amount) AS total FROM orders WHERE paid IS TRUE GROUP BY region;
SELECT count(*) AS orders, count(amount) AS amounts, sum(amount) AS total FROM orders;
