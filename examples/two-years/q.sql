-- Orders of two years, which stand in two tables of the same columns; one of 2023 has no customer, and one of 2024 no amount.
CREATE TABLE orders_2023 (id INT, customer STRING, product STRING, amount INT) USING csv LOCATION 'examples/two-years/orders_2023';
CREATE TABLE orders_2024 (id INT, customer STRING, product STRING, amount INT) USING csv LOCATION 'examples/two-years/orders_2024';
-- all orders, each with its year
SELECT 2023 AS year, * FROM orders_2023 UNION ALL SELECT 2024, * FROM orders_2024;
-- who ordered in either year, each once
SELECT customer FROM orders_2023 UNION SELECT customer FROM orders_2024;
-- what each year came to
SELECT year, count(*) AS orders, sum(amount) AS total
FROM (SELECT 2023 AS year, amount FROM orders_2023 UNION ALL SELECT 2024, amount FROM orders_2024) both_years
GROUP BY year;
-- what each customer ordered in both years together
SELECT customer, count(*) AS orders, sum(amount) AS total
FROM (SELECT * FROM orders_2023 UNION ALL SELECT * FROM orders_2024) both_years
GROUP BY customer;
-- who ordered in both years: UNION leaves one row for each year and customer
SELECT customer
FROM (SELECT 2023 AS year, customer FROM orders_2023 UNION SELECT 2024, customer FROM orders_2024) years
GROUP BY customer
HAVING count(*) = 2;
-- the largest orders of both years together: ORDER BY and LIMIT behind a union are for the whole of it
SELECT 2023 AS year, * FROM orders_2023 UNION ALL SELECT 2024, * FROM orders_2024 ORDER BY amount DESC, year, id LIMIT 5;
-- and each customer, by name
SELECT customer FROM orders_2023 UNION SELECT customer FROM orders_2024 ORDER BY customer
