//! The assembler and the listing: worked filters from their source to their answers. Each mnemonic with each
//! form of operand, and a fault of each kind, are cases of the program (`tests/assembling.py`).

// further: mod programs;
// further: mod sizes;
