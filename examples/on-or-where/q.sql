-- A condition on the right side in ON chooses what is joined: each customer stays, with NULLs where nothing is.
CREATE TABLE customers (id INT, name STRING, city STRING) USING csv LOCATION 'examples/on-or-where/customers';
CREATE TABLE orders (id INT, customer INT, amount INT) USING csv LOCATION 'examples/on-or-where/orders';
SELECT c.name, o.id, o.amount FROM customers c LEFT JOIN orders o ON c.id = o.customer AND o.amount > 30;
-- In WHERE it looks at the rows that were joined: NULL > 30 is not true, so customers without such an order go.
SELECT c.name, o.id, o.amount FROM customers c LEFT JOIN orders o ON c.id = o.customer WHERE o.amount > 30;
-- A condition on the left side in ON drops no customer either.
SELECT c.name, o.id FROM customers c LEFT JOIN orders o ON c.id = o.customer AND c.city = 'Oslo'
