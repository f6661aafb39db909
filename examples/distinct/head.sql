CREATE TABLE g (k INT, v INT) USING csv LOCATION 'examples/tables/g';
CREATE TABLE h (k INT, v INT) USING csv LOCATION 'examples/tables/h';
CREATE TABLE s (a INT) USING csv LOCATION 'examples/tables/s';
CREATE TABLE z (a INT) USING csv LOCATION 'examples/tables/z';
