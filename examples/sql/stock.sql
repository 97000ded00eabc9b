-- A shop's stock and orders, and what is to be ordered anew.
CREATE TABLE IF NOT EXISTS suppliers (
    supplier INTEGER PRIMARY KEY,
    name VARCHAR(40) NOT NULL,
    town TEXT DEFAULT 'Oslo',
    rating NUMERIC(3, 1) CHECK (rating BETWEEN 0 AND 10)
);

CREATE TABLE articles (
    article INTEGER PRIMARY KEY,
    supplier INTEGER NOT NULL REFERENCES suppliers (supplier) ON DELETE CASCADE,
    name TEXT UNIQUE,
    price NUMERIC DEFAULT (0),
    stock INTEGER DEFAULT 0,
    CHECK (price >= 0)
);

CREATE TABLE orders (
    number INTEGER PRIMARY KEY,
    customer TEXT,
    paid INTEGER DEFAULT 0
);

CREATE TABLE order_lines (
    number INTEGER REFERENCES orders (number),
    article INTEGER REFERENCES articles (article),
    units INTEGER NOT NULL CHECK (units > 0),
    price NUMERIC,
    PRIMARY KEY (number, article)
);

INSERT INTO suppliers (supplier, name, town, rating) VALUES
    (1, 'Nordlys', 'Bergen', 8.5),
    (2, 'Holz & Sohn', 'Kassel', 7),
    (3, 'Maker''s Mark', 'Halden', 5.25);
INSERT INTO suppliers (supplier, name) VALUES (4, 'Unknown');
INSERT INTO articles (article, supplier, name, price, stock) VALUES
    (10, 1, 'lamp', 39.90, 4),
    (11, 1, 'bulb', 2.50, 120),
    (12, 2, 'chair', 149, 0),
    (13, 2, 'desk', 420.00, 2),
    (14, 3, 'mirror', 89.5, 7);
INSERT INTO orders (number, customer, paid) VALUES (100, 'Ada', 1), (101, 'Grace', 0), (102, NULL, 1);
INSERT INTO order_lines (number, article, units, price) VALUES
    (100, 10, 2, 39.90), (100, 11, 6, 2.25), (101, 12, 4, 149), (102, 13, 1, 400.00), (102, 14, 3, 89.5);

-- What each customer has to pay.
SELECT customer, COUNT(*) AS lines, SUM(order_lines.units * order_lines.price) AS total
FROM orders JOIN order_lines USING (number)
WHERE paid = 0 AND customer IS NOT NULL
GROUP BY customer
HAVING SUM(units) > 1
ORDER BY total DESC, customer;

-- Articles that sell, or are dear, or of which there are none.
SELECT name FROM articles WHERE stock = 0
UNION
SELECT name FROM articles WHERE price > (SELECT AVG(price) FROM articles)
UNION ALL
SELECT articles.name FROM articles WHERE EXISTS (
    SELECT * FROM order_lines WHERE order_lines.article = articles.article AND units >= 3);

-- What to order anew, the most urgent first.
WITH sold (article, units) AS (
    SELECT article, SUM(units) FROM order_lines GROUP BY article
), wanted AS (
    SELECT articles.article, name, stock - COALESCE(units, 0) AS after,
        CASE WHEN stock < units THEN 'now' WHEN stock < 2 * units THEN 'soon' ELSE 'later' END AS urgency
    FROM articles LEFT JOIN sold ON articles.article = sold.article
    WHERE NOT name LIKE 'b%'
)
SELECT wanted.name, urgency, suppliers.name AS supplier, price * 10 AS cost
FROM wanted
    JOIN articles ON articles.article = wanted.article
    JOIN order_lines ON order_lines.article = wanted.article
    LEFT OUTER JOIN suppliers ON suppliers.supplier = articles.supplier
WHERE after < 5 AND CAST(rating AS INTEGER) NOT IN (1, 2, 3)
ORDER BY CASE urgency WHEN 'now' THEN 0 ELSE 1 END ASC, cost DESC
LIMIT 10 OFFSET 0;

SELECT town, MAX(rating) FROM suppliers GROUP BY town ORDER BY town;
