-- What the reports and the setups of many machines say: a table `lines`, as cct_show csv writes it, with the machine first.

CREATE TEMP VIEW coins AS  -- each coin and each bill that a record posts, by its place
SELECT machine, address, record_index, CAST(each.value AS INTEGER) AS place
FROM lines, json_each('["' || replace(coins, ',', '","') || '"]') AS each
WHERE kind = 'record' AND coins <> '';

.print "How much came in, by the values of the setup"
SELECT coins.machine, coins.address, count(*) AS coins, sum(setup.value) AS value
FROM coins LEFT JOIN lines AS setup
ON setup.kind = 'value' AND setup.machine = coins.machine AND setup.address = coins.address AND setup.place = coins.place
GROUP BY 1, 2;

.print
.print "Which orders are open"
SELECT machine, order_id, address, count, life FROM lines AS opened
WHERE kind = 'record' AND what = 'opened' AND NOT EXISTS (
    SELECT * FROM lines AS closed
    WHERE closed.machine = opened.machine AND closed.order_id = opened.order_id AND closed.what IN ('closed', 'odd'));

.print
.print "What was paid out"
SELECT opened.machine, opened.address, sum(closed.paid) AS coins, sum(closed.paid * setup.value) AS value
FROM lines AS closed
JOIN lines AS opened
ON opened.what = 'opened' AND opened.machine = closed.machine AND opened.order_id = closed.order_id
LEFT JOIN lines AS setup
ON setup.kind = 'hopper' AND setup.machine = closed.machine AND setup.address = opened.address
WHERE closed.what = 'closed' GROUP BY 1, 2;

.print
.print "What was lost"
SELECT machine, address, sum(lost) AS coins FROM lines
WHERE kind = 'record' AND lost > 0 GROUP BY 1, 2;

.print
.print "What these answers leave out, since the journal turned: records, and the sums over all"
SELECT first.machine, min(CAST(first.record_index AS INTEGER)) AS left_out, total.posted, total.lost, total.paid, total.unpaid
FROM lines AS first JOIN lines AS total ON total.kind = 'total' AND total.machine = first.machine
WHERE first.kind = 'record' GROUP BY 1 HAVING left_out > 0;
