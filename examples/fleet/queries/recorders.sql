-- Frames of a path that no switch lost, by link and the port whose recorder missed them first, or whose
-- switch took longer than its window. They have no partner at that hop, and one from end to end that no other
-- frame of port 0 came to. The hops hop1, hop2 .. and `path` were loaded with --frames.
WITH RECURSIVE steps AS (
    SELECT flight, link, number AS start, 1 AS port, other FROM transits
    WHERE hop = 'hop1' AND side = 'before'
    UNION ALL
    SELECT steps.flight, steps.link, start, port + 1, transits.other
    FROM steps JOIN transits ON transits.flight = steps.flight
        AND transits.hop = 'hop' || CAST(port + 1 AS TEXT)
        AND transits.side = 'before' AND transits.number = steps.other
), ends AS (
    SELECT flight, max(port) AS port FROM steps GROUP BY flight
), came AS (
    SELECT steps.flight, steps.other
    FROM steps JOIN ends ON ends.flight = steps.flight AND ends.port = steps.port
    WHERE steps.other IS NOT NULL
)
SELECT steps.flight, steps.link, steps.port, count(*) AS frames
FROM steps JOIN transits AS whole ON whole.flight = steps.flight AND whole.hop = 'path'
    AND whole.side = 'before' AND whole.number = steps.start
LEFT JOIN came ON came.flight = steps.flight AND came.other = whole.other
WHERE steps.other IS NULL AND whole.other IS NOT NULL AND came.other IS NULL
GROUP BY steps.flight, steps.link, steps.port
ORDER BY steps.flight, steps.port, steps.link;
