//! The stepping debugger: worked sessions, and the lines of commands.

// further: mod generated;
// further: mod lines;
// further: mod sizes;
// further: mod worked;
