//! How a command over devices ends.

use pcap_io::MemSink;
use specified::Ran;
use std::process::Abort;

/// The command ends with status 1 and this line, or with status 0 and none where the line is empty. It has
/// written these bytes.
pub(crate) fn ends(rt: &impl Abort, ran: &Ran<MemSink>, line: &str, written: &[u8]) {
    let fails = !line.is_empty();
    assert!(rt;
        ran.status == u8::from(fails) && ran.line.is_some() == fails,
        "{line}"
    );
    if let Some(found) = &ran.line {
        assert!(rt; found.as_str() == line);
    }
    assert!(rt; ran.sink.taken() == written, "{line}");
}
