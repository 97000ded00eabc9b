-- A library's books and loans: tables, views and triggers, a year of work, and last a change of a table.
PRAGMA foreign_keys = ON;

BEGIN TRANSACTION;

CREATE TABLE branch (
    branch INTEGER PRIMARY KEY AUTOINCREMENT,
    name TEXT NOT NULL COLLATE NOCASE UNIQUE ON CONFLICT REPLACE,
    opened DATE DEFAULT CURRENT_DATE,
    seats INT DEFAULT (4 * 8) CHECK (seats >= 0)
);

CREATE TABLE [work] (
    work INTEGER NOT NULL,
    title TEXT NOT NULL CHECK (length(title) BETWEEN 1 AND 200),
    author TEXT,
    year SMALLINT,
    language CHARACTER(2) DEFAULT 'en',
    sort_key TEXT GENERATED ALWAYS AS (lower(author) || '/' || year) STORED,
    CONSTRAINT one_number PRIMARY KEY (work)
) WITHOUT ROWID;

CREATE TABLE copy (
    copy INTEGER PRIMARY KEY,
    work INT NOT NULL REFERENCES work (work) ON DELETE CASCADE ON UPDATE RESTRICT,
    branch INT REFERENCES branch DEFERRABLE INITIALLY DEFERRED,
    shelf VARCHAR(8),
    state TEXT DEFAULT 'good',
    price NUMERIC(6, 2),
    UNIQUE (branch, shelf, copy),
    CHECK (state IN ('good', 'worn', 'lost'))
);

CREATE TABLE "reader" (
    reader INTEGER PRIMARY KEY,
    name TEXT NOT NULL,
    born INTEGER,
    mail TEXT,
    debt REAL DEFAULT 0.0,
    UNIQUE (mail) ON CONFLICT IGNORE
);

CREATE TABLE loan (
    copy INTEGER NOT NULL REFERENCES copy,
    reader INTEGER NOT NULL,
    lent TEXT NOT NULL,
    due TEXT AS (date(lent, '+28 days')) VIRTUAL,
    back TEXT DEFAULT NULL,
    note TEXT,
    fee REAL DEFAULT -0.5e-1,
    PRIMARY KEY (copy, lent DESC),
    FOREIGN KEY (reader) REFERENCES reader (reader) ON DELETE SET NULL
);

CREATE TABLE IF NOT EXISTS fine (reader INT, day TEXT, amount REAL, PRIMARY KEY (reader, day)) STRICT;
DROP TABLE fine;
CREATE TABLE fine (reader INT, day TEXT, amount REAL, PRIMARY KEY (reader, day));
CREATE TEMP TABLE recent AS SELECT * FROM loan WHERE 0;

CREATE INDEX loans_of_reader ON loan (reader, lent DESC);
CREATE UNIQUE INDEX IF NOT EXISTS one_at_a_time ON loan (copy) WHERE back IS NULL;
CREATE INDEX works_by_author ON work (author COLLATE NOCASE ASC, year, length(title));

-- What is out, and what should be back.
CREATE VIEW lent_out AS
    SELECT l.copy, c.work, r.name AS who, l.due, l.note
    FROM loan AS l INNER JOIN copy c ON c.copy = l.copy
        LEFT OUTER JOIN reader r USING (reader)
    WHERE l.back ISNULL;

CREATE VIEW overdue (title, who, days) AS
    SELECT title, who, CAST(julianday('2024-12-31') - julianday(due) AS INTEGER)
    FROM lent_out NATURAL JOIN work
    WHERE due < '2024-12-31' AND NOT (note IS NOT NULL AND note LIKE 'abroad%')
    ORDER BY 3 DESC NULLS LAST;

CREATE VIEW monthly AS
    WITH months (month, loans) AS (
        SELECT strftime('%Y-%m', lent), count(*) FROM loan GROUP BY 1
    )
    SELECT month, loans,
        sum(loans) OVER (ORDER BY month ROWS BETWEEN UNBOUNDED PRECEDING AND CURRENT ROW) AS so_far,
        rank() OVER by_loans AS place,
        loans - lag(loans, 1, 0) OVER (ORDER BY month) AS more
    FROM months
    WINDOW by_loans AS (ORDER BY loans DESC);

CREATE TRIGGER lending BEFORE INSERT ON loan
    WHEN EXISTS (SELECT 1 FROM copy WHERE copy.copy = new.copy AND state = 'lost')
BEGIN
    SELECT RAISE(ABORT, 'a lost book is not lent');
END;

CREATE TRIGGER coming_back AFTER UPDATE OF back ON loan FOR EACH ROW WHEN new.back > old.due
BEGIN
    INSERT INTO fine (reader, day, amount)
        VALUES (new.reader, new.back, 0.25 * (julianday(new.back) - julianday(old.due)))
        ON CONFLICT (reader, day) DO UPDATE SET amount = amount + excluded.amount WHERE excluded.amount > 0;
    UPDATE reader SET debt = (SELECT total(amount) FROM fine WHERE fine.reader = reader.reader)
        WHERE reader = new.reader;
END;

CREATE TRIGGER losing INSTEAD OF DELETE ON lent_out
BEGIN
    UPDATE copy SET state = 'lost', price = coalesce(price, 10) * 2 WHERE copy = old.copy;
    DELETE FROM loan WHERE copy = old.copy AND back IS NULL;
END;

COMMIT;

INSERT INTO branch (name, opened, seats) VALUES ('Harbour', '1998-04-01', 60), ('Hill', '2011-09-12', DATE('2011') > 0);
INSERT OR REPLACE INTO branch (branch, name) VALUES (3, 'Old Mill');
INSERT INTO work (work, title, author, year, language) VALUES
    (1, 'The Waves', 'Woolf', 1931, 'en'),
    (2, 'Der Process', 'Kafka', 1925, 'de'),
    (3, 'Ficciones', 'Borges', 1944, 'es'),
    (4, 'Sult', 'Hamsun', 1890, 'no'),
    (5, 'Le''s Choses', 'Perec', 1965, 'fr'),
    (6, 'Invisible Cities', 'Calvino', 1972, 'it');
INSERT INTO copy (copy, work, branch, shelf, price)
    SELECT 10 * work + branch, work, branch, substr(author, 1, 3) || branch, round(year / 150.0, 2)
    FROM work CROSS JOIN branch
    WHERE (work + branch) % 2 = 0;
INSERT INTO copy VALUES (99, 1, NULL, x'4c33', 'worn', +3.75);
INSERT INTO reader (reader, name, born, mail) VALUES
    (100, 'Ada', 1815, 'ada@example.org'), (101, 'Grace', 1906, NULL), (102, 'Alan', 1912, 'alan@example.org');
REPLACE INTO reader (reader, name) VALUES (103, 'Edsger');
INSERT INTO reader (name, mail) VALUES ('Ada again', 'ada@example.org') ON CONFLICT (mail) DO NOTHING RETURNING reader;

-- Two loans for each reader, on days that a recursion counts, and what came back.
WITH RECURSIVE day (number) AS (
    VALUES (0) UNION ALL SELECT number + 1 FROM day LIMIT 12
), chosen AS MATERIALIZED (
    SELECT copy, row_number() OVER (PARTITION BY work ORDER BY copy) AS place FROM copy WHERE state <> 'lost'
)
INSERT INTO loan (copy, reader, lent, note)
    SELECT copy, 100 + number % 4, date('2024-01-05', '+' || (number * 29) || ' days'),
        CASE number % 3 WHEN 0 THEN 'abroad until ' || number WHEN 1 THEN NULL ELSE '' END
    FROM day JOIN chosen ON number = (copy / 10) * 2 - place
    WHERE place <= 2;

UPDATE loan SET back = date(lent, '+10 days'), note = nullif(note, '') WHERE lent < '2024-06-01';
UPDATE OR IGNORE loan SET (back, fee) = (SELECT date(lent, '+40 days'), 1e0) WHERE back IS NULL AND reader IN (101, 103);
UPDATE reader SET debt = debt + f.amount FROM (SELECT reader, max(amount) AS amount FROM fine GROUP BY reader) AS f
    WHERE f.reader = reader.reader AND f.amount > .5;
DELETE FROM copy WHERE copy NOT IN (SELECT copy FROM loan) AND price IS NOT NULL AND ~branch & 1 = 1;
INSERT INTO recent SELECT * FROM (SELECT copy, reader, lent, due, back, note, fee FROM loan ORDER BY lent DESC LIMIT 2, 3);

SAVEPOINT correcting;
DELETE FROM lent_out WHERE who GLOB 'A*' AND copy = (SELECT min(copy) FROM loan WHERE back IS NULL);
ROLLBACK TO SAVEPOINT correcting;
RELEASE correcting;

-- The year in figures.
SELECT name, count(DISTINCT loan.copy) AS books, group_concat(lent, ' ') FILTER (WHERE back IS NULL) AS still_out
FROM reader LEFT JOIN loan ON loan.reader = reader.reader
GROUP BY reader.reader
HAVING count(*) > 0 OR name LIKE 'E%' ESCAPE '\'
ORDER BY books DESC, name COLLATE NOCASE;

SELECT * FROM monthly;
SELECT title, days FROM overdue WHERE days NOT BETWEEN 0 AND 7;
SELECT 'borrowed', title FROM work WHERE work IN (SELECT work FROM copy, loan WHERE loan.copy = copy.copy)
EXCEPT
SELECT 'borrowed', title FROM work WHERE year < 1900
UNION
SELECT 'never', title FROM work w WHERE NOT EXISTS (SELECT * FROM copy NATURAL JOIN loan WHERE copy.work = w.work)
ORDER BY 1, 2;
SELECT json_extract('{"a": [1, 2]}', '$.a[1]') ->> '$' AS two, '[3]' -> 0, 7 << 2 | 1, - -5, x'41', iif(1 == 1, 'y', 'n');
SELECT (branch, shelf) = (SELECT branch, shelf FROM copy ORDER BY copy DESC LIMIT 1) AS last_one, a.*
FROM copy AS a INDEXED BY sqlite_autoindex_copy_1 WHERE branch >= 1 LIMIT 4 OFFSET 1;
EXPLAIN QUERY PLAN SELECT * FROM loan NOT INDEXED WHERE reader = 100;
ANALYZE loan;
REINDEX NOCASE;

-- A new column for what is said of a loan, and the old one goes.
BEGIN IMMEDIATE;
ALTER TABLE loan ADD COLUMN remark TEXT DEFAULT '';
UPDATE loan SET remark = coalesce(note, remark);
ALTER TABLE branch RENAME TO house;
ALTER TABLE house RENAME COLUMN opened TO since;
DROP INDEX IF EXISTS works_by_author;
DROP TRIGGER losing;
ALTER TABLE loan DROP COLUMN note;
COMMIT;

SELECT who, days FROM overdue;
PRAGMA foreign_key_check;
PRAGMA main.user_version = 2;
VACUUM;
