-- orders of the north, the size of each, and whether it was paid; then the names of all regions in use
CREATE TABLE orders (id INT, region STRING, amount BIGINT, paid BOOLEAN) USING csv LOCATION 'examples/many-files/orders';
SELECT o.id, CASE WHEN amount >= 100 THEN 'large' WHEN amount IS NULL THEN 'unknown' ELSE 'small' END AS size, paid
FROM orders o
WHERE o.region = 'north';
SELECT id, amount * 2 twice FROM orders WHERE region LIKE '%st' AND amount BETWEEN 50 AND 80;
SELECT CAST(id AS STRING) FROM orders WHERE coalesce(amount, 0L) = 0 OR paid IS FALSE;
