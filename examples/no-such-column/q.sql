CREATE TABLE s (a INT) USING csv LOCATION 'examples/subquery/s';
SELECT 1; SELECT x FROM s
