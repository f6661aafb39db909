CREATE TABLE t (a INT, b STRING) USING csv LOCATION 'examples/tables/t';
