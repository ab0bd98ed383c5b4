//! What reports of differences share.

use std::fmt;

/// Bytes of a job or plan that a report shows at most.
const SHOWN_BYTES: usize = 4_096;

pub fn write_bytes(f: &mut fmt::Formatter, name: &str, bytes: &[u8]) -> fmt::Result {
    write!(f, "  {name}, {} bytes:", bytes.len())?;
    for byte in bytes.iter().take(SHOWN_BYTES) {
        write!(f, " {byte:02X}")?;
    }
    if bytes.len() > SHOWN_BYTES {
        write!(f, " and more")?;
    }
    writeln!(f)
}

/// Where two slices of one length differ first.
#[derive(Clone, Copy, Debug)]
pub struct Apart<T> {
    index: usize,
    expected: T,
    given: T,
}

impl<T: Copy + PartialEq + fmt::Display> Apart<T> {
    pub fn of(expected: &[T], given: &[T]) -> Option<Self> {
        assert_eq!(expected.len(), given.len(), "slices of one length");
        if expected == given {
            return None;
        }
        let mut pairs = expected.iter().zip(given);
        let index = pairs.position(|(expected, given)| expected != given)?;
        Some(Apart {
            index,
            expected: expected[index],
            given: given[index],
        })
    }
}

/// One line, if there is a difference.
pub fn write_apart<T: fmt::Display>(
    f: &mut fmt::Formatter,
    name: &str,
    apart: &Option<Apart<T>>,
) -> fmt::Result {
    let Some(apart) = apart else {
        return Ok(());
    };
    let Apart {
        index,
        expected,
        given,
    } = apart;
    writeln!(f, "  {name}[{index}]: expected {expected}, given {given}")
}
