CREATE TABLE l (k INT) USING csv LOCATION 'examples/tables/l';
CREATE TABLE r (k INT, v INT) USING csv LOCATION 'examples/tables/r';
CREATE TABLE n (k INT, v INT) USING csv LOCATION 'examples/tables/n';
CREATE TABLE h (k INT, v INT) USING csv LOCATION 'examples/tables/h';
CREATE TABLE s (a INT) USING csv LOCATION 'examples/tables/s';
CREATE TABLE z (a INT) USING csv LOCATION 'examples/tables/z';
