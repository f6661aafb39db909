-- Customers who never ordered. An order without a customer is nobody's.
CREATE TABLE customers (id INT, name STRING, city STRING) USING csv LOCATION 'examples/customers-without-orders/customers';
CREATE TABLE orders (id INT, customer INT, amount INT) USING csv LOCATION 'examples/customers-without-orders/orders';
SELECT c.id, c.name FROM customers c LEFT ANTI JOIN orders o ON c.id = o.customer;
-- the same question asked with a left join
SELECT c.id, c.name FROM customers c LEFT JOIN orders o ON c.id = o.customer WHERE o.id IS NULL;
-- how many of them there are in each city
SELECT c.city, count(*) AS customers FROM customers c ANTI JOIN orders o ON c.id = o.customer GROUP BY c.city
