CREATE TABLE a (k INT, v INT) USING csv LOCATION 'examples/joins-by-kind/a';
CREATE TABLE b (k INT, w INT) USING csv LOCATION 'examples/joins-by-kind/b';
CREATE TABLE none (k INT, n INT) USING csv LOCATION 'examples/joins-by-kind/none';
CREATE TABLE one (x INT) USING csv LOCATION 'examples/joins-by-kind/one';
