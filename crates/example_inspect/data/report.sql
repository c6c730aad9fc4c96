-- what each region sold
SELECT region, COUNT(*), SUM(amount) FROM t GROUP BY region;
-- the two greatest orders
SELECT day, region, amount FROM t ORDER BY amount DESC LIMIT 2;
SELECT MIN(day), MAX(day) FROM t WHERE amount >= 40;
SELECT SUM(region) FROM t;
