//! Ledgers that are read: the lines of frames, and whole ledgers.

use pcap_io::Script;

// further: mod cuts;
// further: mod frames;
// further: mod reader;

/// A device that gives pieces of so many bytes.
pub fn pieces(piece: usize) -> Script {
    Script {
        piece,
        most: usize::MAX,
        miss: None,
    }
}
