CREATE TABLE orders (id INT, customer STRING, amount INT, paid BOOLEAN) USING csv LOCATION 'examples/orders/orders';
CREATE TABLE s (a INT) USING csv LOCATION 'examples/tables/s';
CREATE TABLE h (k INT, v INT) USING csv LOCATION 'examples/tables/h';
CREATE TABLE g (k INT, v INT) USING csv LOCATION 'examples/tables/g';
CREATE TABLE l (k INT) USING csv LOCATION 'examples/tables/l';
CREATE TABLE r (k INT, v INT) USING csv LOCATION 'examples/tables/r';
CREATE TABLE n (k INT, v INT) USING csv LOCATION 'examples/tables/n';
CREATE TABLE t (a INT, b STRING) USING csv LOCATION 'examples/tables/t';
CREATE TABLE z (a INT) USING csv LOCATION 'examples/tables/z';
