-- Prints the messages that kamailio's module siptrace stored in SQLite (trace_to_database 1) as lines for to-log:
--   sqlite3 trace.db < from-siptrace-db.sql | to-log 10.0.0.1:5060 | siptrace
-- In SQLite time_stamp is a Julian day for whole seconds, which kamailio 5.6 stores half a second too small; time_us has the microseconds.
-- Adding 0.75 and cutting gives the second in both cases. For MySQL take these expressions (not tried), and
-- print with `mysql -N -r`: concat(unix_timestamp(time_stamp), '.', lpad(time_us, 6, '0')), substring_index(fromip, ':', -2), hex(msg).
-- A row that the database refused is missing (kamailio's log says `error storing trace`), and then the log is not complete: the schema of
-- some versions refuses requests without a tag in To. A send may stand after the answer to it: ask with `to-log --skew 3`.
.mode list
.headers off
SELECT printf('%d.%06d', CAST((time_stamp - 2440587.5) * 86400 + 0.75 AS INTEGER), time_us)
  || ' ' || substr(fromip, instr(fromip, ':') + 1)
  || ' ' || substr(toip, instr(toip, ':') + 1)
  || ' ' || hex(msg)
FROM sip_trace
ORDER BY CAST((time_stamp - 2440587.5) * 86400 + 0.75 AS INTEGER), time_us, id;
