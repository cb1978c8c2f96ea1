@1 SELECT * FROM people
@1 INSERT INTO people VALUES (5, 'Emil', 50), (2, 'Bo', 42)
@1 INSERT INTO people VALUES (4, 'Dora', 63)
@1 SELECT name FROM people WHERE age > 7 AND NOT id = 3
@1 SELECT * FROM persons
@1 SELECT * FROM 1
