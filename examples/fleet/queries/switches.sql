-- What switches did wrong, by hop, outcome and link, the most frequent first.
SELECT flight, hop, outcome, id, name, frames
FROM transit_links
WHERE frames > 0 AND outcome IN ('dropped', 'lax', 'leak', 'slow', 'overtaken', 'changed', 'twice', 'new')
ORDER BY frames DESC, flight, hop, outcome, id;
