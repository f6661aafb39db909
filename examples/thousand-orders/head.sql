CREATE TABLE orders (id INT, customer STRING, amount INT) USING csv LOCATION '@@/orders';
