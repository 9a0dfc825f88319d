-- Links that got worse: those whose share of discards in the last flight is above that of all flights before it together,
-- in discards per 1000 frames. Each side needs 100 frames.
WITH given AS (
    SELECT 100 AS least_frames
), newest AS (
    SELECT max(flight) AS flight FROM totals
), sides AS (
    SELECT id, name,
        sum(CASE WHEN links.flight = newest.flight THEN frames ELSE 0 END) AS frames_now,
        sum(CASE WHEN links.flight = newest.flight THEN toolong + excess + out ELSE 0 END) AS discards_now,
        sum(CASE WHEN links.flight <> newest.flight THEN frames ELSE 0 END) AS frames_before,
        sum(CASE WHEN links.flight <> newest.flight THEN toolong + excess + out ELSE 0 END) AS discards_before
    FROM links CROSS JOIN newest GROUP BY id, name
), shares AS (
    SELECT id, name, 1000.0 * discards_before / frames_before AS before, 1000.0 * discards_now / frames_now AS now
    FROM sides CROSS JOIN given WHERE frames_now >= least_frames AND frames_before >= least_frames
)
SELECT id, name, round(CAST(before AS NUMERIC), 3) AS permille_before, round(CAST(now AS NUMERIC), 3) AS permille_now
FROM shares WHERE now > before
ORDER BY now - before DESC, id;
