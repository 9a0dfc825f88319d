-- Discards by rule, link and flight, the most frequent first. Those that have no link have NULL for it.
SELECT flight, rule, id, name, frames FROM (
    SELECT flight, 'toolong' AS rule, id, name, toolong AS frames FROM links
    UNION ALL SELECT flight, 'excess', id, name, excess FROM links
    UNION ALL SELECT flight, 'out', id, name, out FROM links
    UNION ALL SELECT flight, word, NULL, NULL, frames FROM totals
    WHERE word IN ('cut', 'runt', 'oversize', 'foreign', 'unconfigured')
) AS discards
WHERE frames > 0
ORDER BY frames DESC, flight, rule, id;
