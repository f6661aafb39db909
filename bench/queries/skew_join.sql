-- 30 of 100 visits are one customer's: each visit with the level of its customer
SELECT v.page, count(*) AS visits, sum(c.level) AS levels
FROM visits v JOIN customers c ON v.customer = c.id
GROUP BY v.page
