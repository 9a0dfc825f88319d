-- What `load` puts into a database, in SQLite and in PostgreSQL: the words of a ledger (docs/LEDGER.md), and `flight`, the
-- name of the ledger's folder. A word that is `-` in the ledger is NULL.

-- The lines `link`: one for each flight and virtual link.
CREATE TABLE IF NOT EXISTS links (
    flight TEXT NOT NULL, id INTEGER NOT NULL, name TEXT NOT NULL, frames BIGINT NOT NULL, toolong BIGINT NOT NULL,
    excess BIGINT NOT NULL, out BIGINT NOT NULL, copy BIGINT NOT NULL, delivered BIGINT NOT NULL,
    PRIMARY KEY (flight, id)
);

-- The lines `filter`.
CREATE TABLE IF NOT EXISTS filters (
    flight TEXT NOT NULL, number INTEGER NOT NULL, accepted BIGINT NOT NULL,
    PRIMARY KEY (flight, number)
);

-- The lines `tap`.
CREATE TABLE IF NOT EXISTS taps (
    flight TEXT NOT NULL, network TEXT NOT NULL, ending TEXT NOT NULL, frames BIGINT NOT NULL, reason TEXT,
    PRIMARY KEY (flight, network)
);

-- The line `total`: one row for each of its words.
CREATE TABLE IF NOT EXISTS totals (
    flight TEXT NOT NULL, word TEXT NOT NULL, frames BIGINT NOT NULL,
    PRIMARY KEY (flight, word)
);

-- What `report` found, of flights that have report.json beside their ledger (`page` writes it). Timestamps are nanoseconds
-- since 1970. One row for each finding, from the worst on, `number` from 1.
CREATE TABLE IF NOT EXISTS findings (
    flight TEXT NOT NULL, number INTEGER NOT NULL, kind TEXT NOT NULL, level TEXT NOT NULL, networks TEXT NOT NULL,
    first BIGINT NOT NULL, last BIGINT NOT NULL, signs BIGINT NOT NULL, text TEXT NOT NULL,
    PRIMARY KEY (flight, number)
);

-- The numbers that a link lost on a network, and when the first and the last one was missed.
CREATE TABLE IF NOT EXISTS losses (
    flight TEXT NOT NULL, link INTEGER NOT NULL, network TEXT NOT NULL, lost BIGINT NOT NULL, first BIGINT NOT NULL,
    last BIGINT NOT NULL,
    PRIMARY KEY (flight, link, network)
);

-- The links of the findings absent, outage, stops and stops on: `finding` is its number.
CREATE TABLE IF NOT EXISTS gaps (
    flight TEXT NOT NULL, finding INTEGER NOT NULL, kind TEXT NOT NULL, link INTEGER NOT NULL, networks TEXT NOT NULL,
    first BIGINT NOT NULL, last BIGINT NOT NULL,
    PRIMARY KEY (flight, finding, link)
);

-- The silences of networks.
CREATE TABLE IF NOT EXISTS silences (
    flight TEXT NOT NULL, finding INTEGER NOT NULL, networks TEXT NOT NULL, first BIGINT NOT NULL, last BIGINT NOT NULL,
    lost BIGINT NOT NULL,
    PRIMARY KEY (flight, finding)
);

-- The lines of frames, of flights that were loaded with --frames. `length`, on the wire, is that of a ledger of version 3, else NULL.
CREATE TABLE IF NOT EXISTS frames (
    flight TEXT NOT NULL, nanoseconds BIGINT NOT NULL, network TEXT NOT NULL, number BIGINT NOT NULL, link INTEGER,
    sequence INTEGER, class TEXT NOT NULL, policing TEXT, integrity TEXT, redundancy TEXT, kept BIGINT, mask TEXT NOT NULL,
    length BIGINT,
    PRIMARY KEY (flight, network, number)
);

-- What follows is of ledgers of transits (docs/TRANSIT.md). A `hop` has the name of its ledger's file: `path`
-- names those of a path's switches hop1, hop2 .., and the one from its first port to its last `path`.

-- The lines `link`: a row for each side and outcome. All frames of a side together have the outcome `frames`.
CREATE TABLE IF NOT EXISTS transit_links (
    flight TEXT NOT NULL, hop TEXT NOT NULL, id INTEGER NOT NULL, name TEXT NOT NULL, side TEXT NOT NULL,
    outcome TEXT NOT NULL, frames BIGINT NOT NULL,
    PRIMARY KEY (flight, hop, id, side, outcome)
);

-- The line `total` in the same way.
CREATE TABLE IF NOT EXISTS transit_totals (
    flight TEXT NOT NULL, hop TEXT NOT NULL, side TEXT NOT NULL, outcome TEXT NOT NULL,
    frames BIGINT NOT NULL,
    PRIMARY KEY (flight, hop, side, outcome)
);

-- The lines `tap`.
CREATE TABLE IF NOT EXISTS transit_taps (
    flight TEXT NOT NULL, hop TEXT NOT NULL, side TEXT NOT NULL, ending TEXT NOT NULL, frames BIGINT NOT NULL,
    reason TEXT,
    PRIMARY KEY (flight, hop, side)
);

-- The lines `latency`, in nanoseconds. Of all links together `link` is NULL.
CREATE TABLE IF NOT EXISTS transit_latencies (
    flight TEXT NOT NULL, hop TEXT NOT NULL, link INTEGER, frames BIGINT NOT NULL, total BIGINT NOT NULL,
    shortest BIGINT, p50 BIGINT, p99 BIGINT, p999 BIGINT, longest BIGINT,
    UNIQUE (flight, hop, link)
);

-- The lines of frames, of ledgers that were loaded with --frames.
CREATE TABLE IF NOT EXISTS transits (
    flight TEXT NOT NULL, hop TEXT NOT NULL, nanoseconds BIGINT NOT NULL, side TEXT NOT NULL,
    number BIGINT NOT NULL, link INTEGER, sequence INTEGER, class TEXT NOT NULL, policing TEXT, outcome TEXT,
    other BIGINT, latency BIGINT, differs INTEGER,
    PRIMARY KEY (flight, hop, side, number)
);
