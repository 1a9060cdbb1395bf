INSERT INTO record VALUES (256, 0, 0, 0, x'01');
