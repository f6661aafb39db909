CREATE TABLE fruits (id INT, name STRING, stock INT) USING csv LOCATION 'examples/one-table/fruits';
SELECT * FROM fruits
