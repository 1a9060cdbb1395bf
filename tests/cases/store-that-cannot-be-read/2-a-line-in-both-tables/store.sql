INSERT INTO record VALUES (5, 20, 7, 0, x'01');
