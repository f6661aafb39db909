-- the hundred largest of 1,000,000 orders
SELECT id, customer, amount FROM orders ORDER BY amount DESC, id LIMIT 100
