-- all orders by a text and two numbers, printed
SELECT region, amount, id FROM orders ORDER BY region, amount DESC, id
