//! The instruction table. The numeric form by worked examples, and the loader by one program for each fault,
//! are cases of the program (`tests/numeric.py`, `tests/program`).

// further: mod codes;
// further: pub(crate) mod generated;
// further: mod loading;
// further: mod numeric;
// further: mod numeric_cuts;
// further: pub(crate) mod reference;
// further: mod sizes;
// further: mod table;
