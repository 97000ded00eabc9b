CREATE TABLE articles (
    article ,
    price
);
CREATE TABLE order_lines (
    number ,
    price
);
WITH sold AS (
    SELECT article
), wanted AS (
    SELECT article
FROM articles
)
SELECT price
FROM wanted
    JOIN articles
JOIN order_lines ;
