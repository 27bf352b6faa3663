CREATE TABLE orders (id INTEGER PRIMARY KEY, item VARCHAR(20) NOT NULL, due DATE);
INSERT INTO orders VALUES (1, 'lamp', '2024-02-29'), (2, 'chair', NULL);
COMMIT;
SELECT item, due FROM orders WHERE due IS NOT NULL;
