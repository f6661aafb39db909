CREATE TABLE numbers (n INT) USING csv LOCATION 'examples/placed-keys/numbers';
CREATE TABLE flags (yes BOOLEAN, n BIGINT) USING csv LOCATION 'examples/placed-keys/flags';
