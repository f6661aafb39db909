-- customers with more than two orders; those who have spent 100 with no order of 90 or more; and what was spent, had there been many orders
CREATE TABLE orders (id INT, customer INT, amount BIGINT) USING csv LOCATION 'examples/having/orders';
SELECT customer, count(*) AS orders FROM orders GROUP BY customer HAVING count(*) > 2;
SELECT customer, sum(amount) AS spent FROM orders GROUP BY customer HAVING spent >= 100 AND max(amount) < 90;
SELECT sum(amount) AS spent FROM orders HAVING count(*) > 100;
