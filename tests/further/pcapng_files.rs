//! Recordings in pcapng: what editcap of Wireshark writes, and a source that fails. Each kind of block, each
//! ending and each fault are cases of the program (`tests/blocks.py`, `tests/sections.py`).

// further: mod cuts;
// further: mod kinds;
// further: mod worked;
