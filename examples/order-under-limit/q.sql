-- WHERE and LIMIT keep the order of the rows below them, so these are the two least numbers above 1.
CREATE TABLE s (a INT) USING csv LOCATION 'examples/tables/s';
SELECT a FROM (SELECT a FROM s ORDER BY a) WHERE a > 1 LIMIT 2
