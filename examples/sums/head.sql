CREATE TABLE small (n INT, yes BOOLEAN) USING csv LOCATION 'examples/sums/small';
CREATE TABLE large (x BIGINT) USING csv LOCATION 'examples/sums/large';
