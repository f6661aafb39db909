-- customers with what they bought and what they looked at, each pair once: 2,000,000 rows, of which some 200,000 are left
SELECT customer, item FROM orders UNION SELECT customer, page % 20 FROM visits
