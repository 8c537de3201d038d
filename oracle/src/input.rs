//! The bytes that both drivers read: two of capacity, low byte first, then records of 17.

use std::io::{self, Read};

const CAPACITY_BYTES: usize = 2;
const RECORD_BYTES: usize = 17;

/// One record: an operation and two numbers of eight bytes each, low byte first.
#[derive(Clone, Copy)]
pub struct Record {
    pub operation: u8,
    pub first: u64,
    pub second: u64,
}

/// A whole input that has at least its capacity.
pub struct Input {
    pub capacity: usize,
    records: Vec<u8>,
}

impl Input {
    /// Standard input to its end; nothing when it ends before the capacity does.
    pub fn read() -> io::Result<Option<Input>> {
        let mut bytes = Vec::new();
        io::stdin().lock().read_to_end(&mut bytes)?;
        if bytes.len() < CAPACITY_BYTES {
            return Ok(None);
        }
        let records = bytes.split_off(CAPACITY_BYTES);
        let capacity = usize::from(u16::from_le_bytes([bytes[0], bytes[1]]));
        Ok(Some(Input { capacity, records }))
    }

    /// The whole records, in order.
    pub fn records(&self) -> impl Iterator<Item = Record> {
        self.records.chunks_exact(RECORD_BYTES).map(|bytes| Record {
            operation: bytes[0],
            first: number(&bytes[1..9]),
            second: number(&bytes[9..17]),
        })
    }

    /// Whether the input ends inside a record.
    pub fn is_cut(&self) -> bool {
        self.records.len() % RECORD_BYTES != 0
    }
}

fn number(bytes: &[u8]) -> u64 {
    u64::from_le_bytes(bytes.try_into().expect("a number has eight bytes"))
}
