//! The source text of filters: worked examples, and a fault at each kind of place.

// further: mod cuts;
// further: mod faults;
// further: mod forms;
// further: mod operands;
// further: mod reference;
// further: mod sizes;
