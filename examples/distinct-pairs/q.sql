-- Who bought what, each pair once; NULL is a value like another.
CREATE TABLE orders (id INT, customer STRING, product STRING, number INT) USING csv LOCATION 'examples/distinct-pairs/orders';
SELECT DISTINCT customer, product FROM orders;
-- how many pairs there are
SELECT count(*) AS pairs FROM (SELECT DISTINCT customer, product FROM orders) p;
-- how many different customers each product has: DISTINCT does not stand within a call, so it stands below the groups
SELECT product, count(customer) AS customers FROM (SELECT DISTINCT customer, product FROM orders) p GROUP BY product
