CREATE TABLE t (a INT, b STRING) USING csv LOCATION 'examples/tables/t';
CREATE TABLE h (k INT, v INT) USING csv LOCATION 'examples/tables/h';
