-- What a second process asks of the database that the first one left.
SELECT count(*), sum(number), sum(weight), min(name), max(colour) FROM part;
SELECT total(before), total(after), count(DISTINCT number) FROM change;
SELECT number, name, weight, colour FROM part WHERE number % 40 = 1 ORDER BY weight, number;
SELECT a.name, count(*), sum(count) FROM use JOIN part a ON a.number = whole GROUP BY a.number HAVING count(*) > 1
    ORDER BY a.name LIMIT 40;
SELECT colour, group_concat(number, ' ') FROM (SELECT * FROM part ORDER BY number DESC LIMIT 60) GROUP BY colour;
PRAGMA integrity_check;
PRAGMA foreign_key_check(part);
SELECT count(*) FROM heavy;
