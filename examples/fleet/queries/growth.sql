-- Links whose share of discards grows from flight to flight: the slope of the line through their shares, in discards per
-- 1000 frames and flight. Flights follow each other by name. Flights in which a link has fewer than 100 frames tell
-- nothing of it, and three are needed.
WITH given AS (
    SELECT 100 AS least_frames, 3 AS least_flights
), places AS (
    SELECT flight, row_number() OVER (ORDER BY flight) AS place FROM (SELECT DISTINCT flight FROM totals) AS flights
), shares AS (
    SELECT id, name, place, 1000.0 * (toolong + excess + out) / frames AS share
    FROM links JOIN places ON places.flight = links.flight CROSS JOIN given
    WHERE frames >= least_frames
), slopes AS (
    SELECT id, name, count(*) AS flights, avg(share) AS mean,
        (count(*) * sum(place * share) - sum(place) * sum(share)) / (count(*) * sum(place * place) - sum(place) * sum(place)) AS slope
    FROM shares CROSS JOIN given GROUP BY id, name, least_flights HAVING count(*) >= least_flights
)
SELECT id, name, flights, round(CAST(slope AS NUMERIC), 3) AS permille_per_flight, round(CAST(mean AS NUMERIC), 3) AS mean_permille
FROM slopes WHERE slope > 0.0005
ORDER BY slope DESC, id;
