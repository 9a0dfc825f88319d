//! Frames at their bounds, with bytes of their own and in a block that they share, the order of keys, and
//! views at their shortest lengths.

// further: mod parts;
// further: mod worked;
