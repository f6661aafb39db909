CREATE TABLE s (a INT) USING csv LOCATION 'examples/subquery/s';
SELECT a + 1 AS n FROM (SELECT a FROM s WHERE a > 2) q
