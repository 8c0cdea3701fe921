-- Statements of many kinds over a database in a file, whose answers are written as they come. @ROWS@ is put in by the trial.
CREATE TABLE part(number INTEGER PRIMARY KEY, name TEXT NOT NULL, weight REAL, colour TEXT);
CREATE TABLE use(whole INTEGER REFERENCES part, part INTEGER REFERENCES part, count INTEGER, PRIMARY KEY(whole, part))
    WITHOUT ROWID;
CREATE TABLE change(number INTEGER, before REAL, after REAL);
CREATE TRIGGER note_change AFTER UPDATE OF weight ON part
    BEGIN INSERT INTO change VALUES(new.number, old.weight, new.weight); END;
BEGIN;
WITH RECURSIVE n(i) AS (SELECT 1 UNION ALL SELECT i + 1 FROM n WHERE i < @ROWS@)
    INSERT INTO part SELECT i, printf('part %05d', i * 7919 % 100003), i * 37 % 101 / 8.0,
        CASE i % 3 WHEN 0 THEN 'red' WHEN 1 THEN 'green' END FROM n;
INSERT INTO use SELECT number / 2, number, number % 5 + 1 FROM part WHERE number > 1;
COMMIT;
CREATE INDEX part_by_name ON part(name);
SELECT count(*), sum(weight), min(name), max(name), count(colour) FROM part;
SELECT name, weight FROM part WHERE name BETWEEN 'part 02000' AND 'part 04000' ORDER BY name LIMIT 20;
SELECT colour, count(*), avg(weight) FROM part GROUP BY colour ORDER BY colour;
WITH RECURSIVE below(number, depth) AS (
    VALUES(1, 0) UNION ALL SELECT part, depth + 1 FROM use, below WHERE whole = below.number)
    SELECT depth, count(*), sum(weight) FROM below JOIN part USING(number) GROUP BY depth;
UPDATE part SET weight = weight * 2 WHERE number % 7 = 0;
SELECT count(*), sum(after - before) FROM change;
BEGIN;
DELETE FROM part WHERE number % 2 = 0;
SELECT count(*) FROM part;
ROLLBACK;
SELECT count(*), hex(group_concat(name, '')) FROM part WHERE number <= 10;
DELETE FROM use WHERE part % 3 = 0;
SELECT upper(a.name), lower(b.name), round(a.weight / 3, 4), quote(b.colour) FROM use
    JOIN part a ON a.number = whole JOIN part b ON b.number = part ORDER BY a.name DESC, b.name LIMIT 30;
SELECT number, sum(weight) OVER (ORDER BY number ROWS BETWEEN 3 PRECEDING AND CURRENT ROW) FROM part LIMIT 25;
CREATE VIEW heavy AS SELECT * FROM part WHERE weight > (SELECT avg(weight) FROM part);
SELECT count(*), (SELECT name FROM heavy ORDER BY weight DESC, name LIMIT 1) FROM heavy;
SELECT name FROM part WHERE name LIKE '%77%' AND name NOT GLOB '*0' ORDER BY 1;
DROP INDEX part_by_name;
DELETE FROM part WHERE number > @ROWS@ / 2;
VACUUM;
PRAGMA integrity_check;
SELECT name, rootpage > 0 FROM sqlite_schema ORDER BY name;
