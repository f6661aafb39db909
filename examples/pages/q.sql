-- A list of thirteen products, four to a page: each page is cut out of the same order, which the names settle where prices tie.
CREATE TABLE products (name STRING, price INT, sold BOOLEAN) USING csv LOCATION 'examples/pages/products';
SELECT name, price FROM products ORDER BY price, name LIMIT 4;
SELECT name, price FROM products ORDER BY price, name LIMIT 4 OFFSET 4;
SELECT name, price FROM products ORDER BY price, name LIMIT 4 OFFSET 8;
SELECT name, price FROM products ORDER BY price, name LIMIT 4 OFFSET 12;
-- the second page of what is not sold, three to a page, the dear ones first, by a price that is not shown
SELECT name FROM products WHERE sold IS NOT TRUE ORDER BY price DESC, name LIMIT 3 OFFSET 3
