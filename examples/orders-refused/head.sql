CREATE TABLE t (a INT, b STRING) USING csv LOCATION 'examples/tables/t';
CREATE TABLE h (k INT, v INT) USING csv LOCATION 'examples/tables/h';
CREATE TABLE s (a INT) USING csv LOCATION 'examples/tables/s';
CREATE TABLE l (k INT) USING csv LOCATION 'examples/tables/l';
CREATE TABLE r (k INT, v INT) USING csv LOCATION 'examples/tables/r';
