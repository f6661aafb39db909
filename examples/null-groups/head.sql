CREATE TABLE visits (city STRING, age INT, paid INT) USING csv LOCATION 'examples/null-groups/visits';
