-- Groups in the order of their key: NULL is a key like another, and stands first.
CREATE TABLE g (k INT, v INT) USING csv LOCATION 'examples/tables/g';
SELECT k, sum(v) FROM g GROUP BY k ORDER BY k
