-- no column of the table has this name
SELECT regoin, COUNT(*) FROM t GROUP BY regoin;
-- a sum wants numbers
SELECT SUM(region) FROM t;
-- a text is compared with a text
SELECT COUNT(*) FROM t WHERE amount >= '40';
-- beside a group stands what it is grouped by
SELECT region, amount, COUNT(*) FROM t GROUP BY region;
-- rows want an order or a limit
SELECT day, region FROM t;
-- no query begins so
SELECT COUNT(*) FORM t;
-- more rows than a query may ask for
SELECT day FROM t ORDER BY day LIMIT 5000;
-- and a query that is well
SELECT COUNT(*) FROM t;
