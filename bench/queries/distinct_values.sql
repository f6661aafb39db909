-- some 200,000 values, of which each stands in some five rows
SELECT DISTINCT customer * 20 + item AS pair FROM orders
