//! A recording of hundreds of long frames over a reader and a writer of std.

use crate::recording::copies::push_record;
use crate::support::HEADER;
use afdx_frame::Network;
use pcap_io::{CaptureWriter, Ending, Found, ReadSource, TapReader, WriteSink};
use std::test::Fail;

#[test]
fn a_recording_over_std(rt: HostRuntime) -> Result<(), Fail> {
    let alloc = rt.alloc();
    let mut bytes = Vec::from_slice(alloc, &HEADER)?;
    for stamp in 0..500 {
        push_record(&mut bytes, stamp, 1514, 9)?;
    }
    let source = ReadSource::new(bytes.as_slice());
    let Ok(mut reader) = TapReader::open(source, Network::A, 1 << 32, 0) else {
        return Err("it isn't opened".into());
    };
    let mut writer = match CaptureWriter::begin(WriteSink::new(Vec::new(alloc))) {
        Ok(writer) => writer,
        Err(_) => return Err("the sink failed".into()),
    };
    for count in 0..500u64 {
        assert!(rt; reader.advance(alloc)? == Found::Frame, "frame {count}");
        let frame = reader.frame();
        let captured = frame.view().bytes().len() as u32;
        assert!(rt; captured == 1514);
        writer.put_lent(&frame, captured)?;
    }
    assert!(rt; reader.advance(alloc)? == Found::End(Ending::Clean(500)));
    assert!(rt; writer.finish().into_writer() == bytes);
    Ok(())
}
