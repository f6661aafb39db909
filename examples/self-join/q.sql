-- Employees beside their managers: one table under two names.
CREATE TABLE employees (id INT, name STRING, manager INT) USING csv LOCATION 'examples/self-join/employees';
SELECT e.name, m.name AS manager FROM employees e JOIN employees m ON e.manager = m.id;
-- each employee, also one without a manager, or with one who is not there
SELECT e.name, m.name AS manager FROM employees e LEFT JOIN employees m ON e.manager = m.id;
-- managers, and how many they lead
SELECT m.name, count(*) AS leads FROM employees m JOIN employees e ON m.id = e.manager GROUP BY m.name;
-- colleagues, each pair once
SELECT a.name, b.name AS colleague FROM employees a JOIN employees b ON a.manager = b.manager AND a.id < b.id
