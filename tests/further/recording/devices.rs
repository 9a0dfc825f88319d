//! Sources and sinks over the readers and writers of std, and over memory.
ghost use Rattle.std.specs.Prelude.{◌≡◌, IfOk};

use crate::support::SOUND;
use pcap_io::{DeviceFault, MemSink, MemSource, OutSink, ReadSource, Script, TapSource, WriteSink};
use std::alloc::AllocError;
use std::io;
use std::io::{Read, Write};

#[test]
fn a_slice_is_read_whole(rt: HostRuntime) -> Result<(), AllocError> {
    let bytes = vec![in rt.alloc(); 7u8; 200_000]?;
    let mut buf = vec![in rt.alloc(); 0u8; 150_000]?;
    let mut source = ReadSource::new(bytes.as_slice());
    for came in [150_000, 50_000, 0] {
        assert!(rt; source.read(buf.as_mut_slice()) == Ok(came));
        assert!(rt; buf.first() == Some(&7));
    }
    assert!(rt; source.into_reader().len() == 0);
    Ok(())
}

#[test]
fn a_vector_takes_all(rt: HostRuntime) -> Result<(), AllocError> {
    let bytes = vec![in rt.alloc(); 7u8; 150_000]?;
    let mut sink = WriteSink::new(Vec::new(rt.alloc()));
    for given in [bytes.as_slice(), &[], &[1, 2]] {
        assert!(rt; sink.write(given) == Ok(given.len()));
    }
    let taken = sink.into_writer();
    assert!(rt; taken.len() == 150_002);
    assert!(rt; taken.last() == Some(&2));
    Ok(())
}

/// Fails at each call, or takes and gives nothing.
#[derive(Drop)]
struct Broken {
    fails: bool,
}

impl Broken {
    fn answer(&self) -> io::Result<usize>
        ensures { IfOk result (λ n. n ≡ 0) }
    {
        if self.fails {
            Err(io::ErrorKind::Other.into())
        } else {
            Ok(0)
        }
    }
}

impl Read for Broken {
    fn read(&mut self, _buf: &mut [u8]) -> io::Result<usize> {
        self.answer()
    }
}

impl Write for Broken {
    fn write(&mut self, _buf: &[u8]) -> io::Result<usize> {
        self.answer()
    }

    fn flush(&mut self) -> io::Result<()> {
        Ok(())
    }
}

#[test]
fn a_reader_or_writer_that_fails(rt: HostRuntime) {
    for (fails, came) in [(true, Err(DeviceFault)), (false, Ok(0))] {
        let mut source = ReadSource::new(Broken { fails });
        assert!(rt; source.read(&mut [0; 8]) == came);
        let mut sink = WriteSink::new(Broken { fails });
        assert!(rt; sink.write(&[1]) == Err(DeviceFault));
        assert!(rt; sink.write(&[]) == came);
    }
}

/// The answers to calls that pass up to three bytes, and five in all, of which the second fails alone.
const ANSWERS: [Result<usize, DeviceFault>; 4] = [Ok(3), Err(DeviceFault), Ok(2), Err(DeviceFault)];

const SCRIPT: Script = Script {
    piece: 3,
    most: 5,
    miss: Some(1),
};

#[test]
fn a_source_of_memory_follows_its_script(rt: HostRuntime) -> Result<(), AllocError> {
    let mut source = MemSource::new(Vec::from_slice(rt.alloc(), &[1, 2, 3, 4, 5, 6])?, SCRIPT);
    let mut buf = [0u8; 8];
    for answer in ANSWERS {
        assert!(rt; source.read(&mut buf) == answer);
    }
    assert!(rt; buf[..2] == [4, 5]);
    Ok(())
}

/// What is given to the sink, call by call.
const GIVEN: [&[u8]; 4] = [&[1, 2, 3, 4], &[4], &[4, 5, 6], &[6]];

#[test]
fn a_sink_of_memory_follows_its_script(rt: HostRuntime) -> Result<(), AllocError> {
    let mut sink = MemSink::new(rt.alloc(), SCRIPT)?;
    for (given, answer) in GIVEN.iter().zip(ANSWERS) {
        assert!(rt; sink.write(given) == answer);
    }
    assert!(rt; sink.taken() == [1, 2, 3, 4, 5].as_slice());
    Ok(())
}

#[test]
fn a_sound_source_of_memory(rt: HostRuntime) -> Result<(), AllocError> {
    let mut source = MemSource::new(Vec::from_slice(rt.alloc(), &[1, 2])?, SOUND);
    for came in [2, 0] {
        assert!(rt; source.read(&mut [0; 8]) == Ok(came));
    }
    Ok(())
}
