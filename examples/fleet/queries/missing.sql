-- Frames that one network's tap recorded and the other's didn't, by flight and link, of flights that were loaded with
-- --frames. A frame has its like on the other network where one of its link and number is there within 100 ms: a number
-- comes again after 255 frames, which at the least BAG are 255 ms. Nothing is said of the first and the last 100 ms that
-- both taps share.
WITH shared AS (
    SELECT flight, max(first) AS first, min(last) AS last FROM (
        SELECT flight, network, min(nanoseconds) AS first, max(nanoseconds) AS last FROM frames GROUP BY flight, network
    ) AS spans
    GROUP BY flight HAVING count(*) = 2
), alike AS (
    SELECT flight, link, network, nanoseconds,
        sum(CASE network WHEN 'A' THEN 1 ELSE 0 END) OVER near AS on_a,
        sum(CASE network WHEN 'B' THEN 1 ELSE 0 END) OVER near AS on_b
    FROM frames WHERE sequence IS NOT NULL
    WINDOW near AS (
        PARTITION BY flight, link, sequence ORDER BY nanoseconds RANGE BETWEEN 100000000 PRECEDING AND 100000000 FOLLOWING
    )
)
SELECT alike.flight, link, CASE on_a WHEN 0 THEN 'A' ELSE 'B' END AS missing_on, count(*) AS frames
FROM alike JOIN shared ON shared.flight = alike.flight
WHERE (on_a = 0 OR on_b = 0) AND nanoseconds BETWEEN first + 100000000 AND last - 100000000
GROUP BY alike.flight, link, missing_on
ORDER BY frames DESC, alike.flight, link, missing_on;
