-- Orders before which their customer made no other: those that have no earlier one beside them.
CREATE TABLE customers (id INT, name STRING, city STRING) USING csv LOCATION 'examples/first-orders/customers';
CREATE TABLE orders (id INT, customer INT, amount INT) USING csv LOCATION 'examples/first-orders/orders';
SELECT o.id, o.customer, o.amount FROM orders o ANTI JOIN orders earlier ON o.customer = earlier.customer AND earlier.id < o.id
WHERE o.customer IS NOT NULL;
-- customers who ordered, each once however often they did
SELECT c.name FROM customers c LEFT SEMI JOIN orders o ON c.id = o.customer;
-- customers with a first order of more than 30
SELECT c.name FROM customers c SEMI JOIN (SELECT customer, min(id) AS id FROM orders GROUP BY customer) first ON c.id = first.customer
SEMI JOIN orders o ON c.id = o.customer AND o.amount > 30
