//! The command `capture` over devices: devices that fail.

// further: mod arguments;
// further: mod asm;
// further: mod devices;
// further: mod lines;
// further: mod real_size;
