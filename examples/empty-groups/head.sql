CREATE TABLE s (a INT) USING csv LOCATION 'examples/tables/s';
CREATE TABLE z (a INT) USING csv LOCATION 'examples/tables/z';
CREATE TABLE nothing (a INT) USING csv LOCATION 'examples/empty-groups/nothing';
