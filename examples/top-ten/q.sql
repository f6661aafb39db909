-- What fourteen sellers sold in three months, a file each; of one sale the amount is not known.
CREATE TABLE sold (seller STRING, region STRING, amount INT) USING csv LOCATION 'examples/top-ten/sold';
-- the ten who sold most; where totals tie, the names decide, so that the tenth is one and the same in each run
SELECT seller, sum(amount) AS total FROM sold GROUP BY seller ORDER BY total DESC, seller LIMIT 10;
-- the best three of the north
SELECT seller, sum(amount) AS total FROM sold WHERE region = 'north' GROUP BY seller ORDER BY total DESC, seller LIMIT 3;
-- the five who sold most often; where that ties, by their largest sale: neither is shown
SELECT seller FROM sold GROUP BY seller ORDER BY count(*) DESC, max(amount) DESC, seller LIMIT 5;
-- what has to be sold to be among the ten
SELECT min(total) AS least_of_the_ten
FROM (SELECT seller, sum(amount) AS total FROM sold GROUP BY seller ORDER BY total DESC, seller LIMIT 10) best
