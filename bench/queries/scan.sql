-- two expressions where a condition keeps one row in ten
SELECT id + item AS n, amount * 2 % 1000003 AS m FROM orders WHERE item < 2
