//! The command `debug` over devices.

// further: mod sessions;
