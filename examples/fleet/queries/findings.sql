-- The findings of level trouble, by kind: how many flights have them, how many there are, and the latest flight.
SELECT kind, count(DISTINCT flight) AS flights, count(*) AS findings, max(flight) AS latest
FROM findings
WHERE level = 'trouble'
GROUP BY kind
ORDER BY flights DESC, findings DESC, kind;
