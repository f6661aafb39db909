-- two columns of every row, printed
SELECT id, region FROM orders
