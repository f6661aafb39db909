-- What each customer has spent, over three tables. An order of a product without a price costs nothing that is known.
CREATE TABLE customers (id INT, name STRING, city STRING) USING csv LOCATION 'examples/three-tables/customers';
CREATE TABLE orders (id INT, customer INT, product STRING, pieces INT) USING csv LOCATION 'examples/three-tables/orders';
CREATE TABLE products (name STRING, price INT) USING csv LOCATION 'examples/three-tables/products';
SELECT c.name, p.name AS product, o.pieces * p.price AS cost
FROM orders o JOIN customers c ON o.customer = c.id JOIN products p ON o.product = p.name;
SELECT c.city, sum(o.pieces * p.price) AS spent, count(*) AS orders
FROM customers c JOIN orders o ON c.id = o.customer LEFT JOIN products p ON p.name = o.product GROUP BY c.city;
-- products that nobody ordered, and orders of products that are not there, in one list
SELECT o.id, p.name FROM orders o FULL JOIN products p ON o.product = p.name WHERE o.id IS NULL OR p.name IS NULL
