SELECT dept, SUM(pay), COUNT(pay) FROM t GROUP BY dept;
