-- How long frames took from port 0 of a path over so many of its switches, by link, in nanoseconds. The hops
-- hop1, hop2 .. were loaded with --frames: what came out of one went into the next.
WITH RECURSIVE steps AS (
    SELECT flight, link, 1 AS hops, other, latency AS whole FROM transits
    WHERE hop = 'hop1' AND side = 'before' AND other IS NOT NULL
    UNION ALL
    SELECT steps.flight, steps.link, hops + 1, transits.other, whole + transits.latency
    FROM steps JOIN transits ON transits.flight = steps.flight
        AND transits.hop = 'hop' || CAST(hops + 1 AS TEXT)
        AND transits.side = 'before' AND transits.number = steps.other
    WHERE transits.other IS NOT NULL
)
SELECT flight, link, hops, count(*) AS frames, min(whole) AS shortest,
    CAST(sum(whole) AS BIGINT) / count(*) AS mean, max(whole) AS longest
FROM steps
GROUP BY flight, link, hops
ORDER BY flight, link, hops;
