//! What the tests of recordings share: recordings of many sizes, and the copy of a recording by the
//! reader and the writer.

use crate::recording::reference::End;
use crate::support::SOUND;
use afdx_frame::{MAX_SNAPLEN, Network};
use pcap_io::{BadReason, CaptureWriter, Ending, Found, HeaderFault, Item, MemSink, MemSource, OpenFault, OutSink, Script, TapReader, TapSource};
use std::alloc::{AllocError, Global};
use std::test::Fail;

/// Appends the record of a frame of so many bytes, all of one value, with a stamp of so many
/// nanoseconds.
pub(crate) fn push_record(
    bytes: &mut Vec<u8>,
    nanoseconds: usize,
    len: usize,
    value: u8,
) -> Result<(), AllocError> {
    bytes.extend_from_slice(&0u32.to_le_bytes())?;
    bytes.extend_from_slice(&nanoseconds.to_le_bytes()[..4])?;
    bytes.extend_from_slice(&len.to_le_bytes()[..4])?;
    bytes.extend_from_slice(&len.to_le_bytes()[..4])?;
    for _ in 1..len {
        bytes.push(value)?;
    }
    if len > 0 {
        // The last byte tells a frame that is cut or shifted.
        bytes.push(value ^ 0xff)?;
    }
    Ok(())
}

/// A sink with room for so many bytes.
pub(crate) fn room(alloc: Global, most: usize, piece: usize) -> Result<MemSink, AllocError> {
    let script = Script {
        piece,
        most,
        miss: None,
    };
    MemSink::new(alloc, script)
}

/// A source of these bytes, in such pieces.
pub(crate) fn source(alloc: Global, bytes: &[u8], piece: usize) -> Result<MemSource, AllocError> {
    let bytes = Vec::from_slice(alloc, bytes)?;
    Ok(MemSource::new(bytes, Script { piece, ..SOUND }))
}

/// Copies what is left of a recording by frames that the reader lends, each cut to `keep` bytes.
fn copy_lent<S: TapSource, W: OutSink>(
    alloc: Global,
    reader: &mut TapReader<S>,
    writer: &mut CaptureWriter<W>,
    keep: u32,
) -> Result<Ending, Fail> {
    for _ in 0..u64::MAX {
        match reader.advance(alloc)? {
            Found::End(ending) => return Ok(ending),
            Found::Frame => {
                let frame = reader.frame();
                let captured = frame.view().bytes().len() as u32;
                writer.put_lent(&frame, keep.min(captured))?;
            }
        }
    }
    Err("no ending".into())
}

/// Copies it by frames that own their bytes.
fn copy_owned<S: TapSource, W: OutSink>(
    alloc: Global,
    reader: &mut TapReader<S>,
    writer: &mut CaptureWriter<W>,
    keep: u32,
) -> Result<Ending, Fail> {
    for _ in 0..u64::MAX {
        match reader.next(alloc)? {
            Item::End(ending) => return Ok(ending),
            Item::Frame(frame) => {
                let captured = frame.view().bytes().len() as u32;
                writer.put(&frame, keep.min(captured))?;
            }
        }
    }
    Err("no ending".into())
}

/// By which calls a recording is copied.
#[derive(Clone, Copy, Debug, PartialEq, Eq)]
pub enum By {
    /// `advance` and `put_lent`.
    Lent,
    /// `next` and `put`.
    Owned,
}

/// How a recording is copied: by which calls, and in blocks of how many bytes it is read.
#[derive(Clone, Copy, Debug, PartialEq, Eq)]
pub struct Way {
    pub by: By,
    pub block: usize,
}

/// The bytes of the reader's block, unless another length is asked for.
pub const BLOCK: usize = 65_536;

/// By either calls, in blocks of the usual length and in blocks that hold no frame whole.
pub const WAYS: [Way; 4] = [
    Way {
        by: By::Lent,
        block: BLOCK,
    },
    Way {
        by: By::Owned,
        block: BLOCK,
    },
    Way {
        by: By::Lent,
        block: 32,
    },
    Way {
        by: By::Owned,
        block: 32,
    },
];

/// Copies a recording, each frame cut to `keep` bytes: what the capture is, and how it ended in the
/// reference's terms.
pub(crate) fn copy(
    alloc: Global,
    source: MemSource,
    sink: MemSink,
    keep: u32,
    way: Way,
) -> Result<(MemSink, End), Fail> {
    let mut reader = match TapReader::open(source, Network::A, 1 << 32, 0) {
        Ok(reader) => reader.with_block_len(way.block),
        Err(refused) => return Ok((sink, end_of_fault(refused.fault)?)),
    };
    let mut writer = match CaptureWriter::begin(sink) {
        Ok(writer) => writer,
        Err(_) => return Err("the sink failed".into()),
    };
    let ending = match way.by {
        By::Lent => copy_lent(alloc, &mut reader, &mut writer, keep)?,
        By::Owned => copy_owned(alloc, &mut reader, &mut writer, keep)?,
    };
    let _source = reader.into_source();
    Ok((writer.finish(), end_of(ending)?))
}

/// How a recording ended, in the reference's terms.
fn end_of(ending: Ending) -> Result<End, Fail> {
    Ok(match ending {
        Ending::Clean(count) => End::Clean(count),
        Ending::Cut(count) => End::Cut(count),
        Ending::Bad(count, BadReason::Length) => End::Length(count),
        Ending::Bad(count, BadReason::Fraction) => End::Fraction(count),
        Ending::Bad(count, BadReason::StampBack { by }) => End::StampBack(count, by),
        Ending::Bad(..) => return Err("a reason that no pcap file has".into()),
    })
}

/// Why no reader was opened, in the reference's terms.
fn end_of_fault(fault: OpenFault) -> Result<End, Fail> {
    Ok(match fault {
        OpenFault::Header(HeaderFault::Short) => End::Short,
        OpenFault::Header(HeaderFault::Magic) => End::Magic,
        OpenFault::Header(HeaderFault::Version) => End::Version,
        OpenFault::Header(HeaderFault::LinkType) => End::LinkType,
        OpenFault::Header(_) => return Err("a fault that no pcap file has".into()),
        OpenFault::Device => return Err("the source failed".into()),
    })
}

/// The longest record.
pub const LONGEST: usize = MAX_SNAPLEN;
