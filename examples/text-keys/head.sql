CREATE TABLE words (word STRING, number INT) USING csv LOCATION 'examples/text-keys/words';
