//! Cases in a binary file, for the C client that calls the library with buffers of exact length.
//!
//! A case is ten numbers of 64 bits, lowest byte first: service (0 check, 1 listing, 2 short form,
//! 3 membership), length of package, length of formula, budget, length of the output, then the answer:
//! number, place, count, last (bytes written or membership), and how many bytes are written; then the bytes
//! of package, formula and output written.
//!
//! A word at a place of another has 4 as its service, the word as package, the other word as formula, and the
//! place as budget; the answer's number is 1 where the word stands there, else 0, its place how many letters
//! are compared, and the rest is 0.
//!
//! A word that is packed has 5 as its service and is the package; the answer's number is 1 where the word has at
//! most 72 letters and no other bytes, else 0, the six numbers are the output written, 48 bytes, and the rest is 0.

use crate::compare::Expected;
use crate::input::Input;
use oracle::generate::places::AtPlace;
use oracle::packing::Packed;
use oracle::standing::Stood;
use std::fs::File;
use std::io::{Result, Write};

/// What stands in the file as the service of a word at a place, and of a word that is packed.
const STANDS_AT: u64 = 4;
const PACK: u64 = 5;

pub struct CaseFile(File);

impl CaseFile {
    pub fn create(path: &str) -> Result<CaseFile> {
        File::create(path).map(CaseFile)
    }

    pub fn write(&mut self, input: &Input, expected: &Expected) -> Result<()> {
        let (service, budget, out_len) = (input.service as u64, input.budget.into(), input.out_len as u64);
        let numbers = expected.numbers;
        let answer = [numbers.number, numbers.place, numbers.count, numbers.last];
        self.put([service, budget, out_len], answer, [input.package, input.formula, &expected.output])
    }

    pub fn write_place(&mut self, at: &AtPlace, expected: Stood) -> Result<()> {
        let answer = [expected.stands.into(), expected.compared as u64, 0, 0];
        self.put([STANDS_AT, at.place as u64, 0], answer, [&at.word, &at.other, b""])
    }

    pub fn write_packed(&mut self, word: &[u8], expected: Packed) -> Result<()> {
        let numbers = expected.blocks.map(u64::to_le_bytes).concat();
        self.put([PACK, 0, numbers.len() as u64], [expected.fits.into(), 0, 0, 0], [word, b"", &numbers])
    }

    /// Writes a case at once, so that it is in the file even when the call that follows does not return.
    fn put(&mut self, call: [u64; 3], answer: [u64; 4], bytes: [&[u8]; 3]) -> Result<()> {
        let [service, budget, out_len] = call;
        let [package_len, formula_len, written] = bytes.map(|bytes| bytes.len() as u64);
        let fields =
            [&[service, package_len, formula_len, budget, out_len], &answer[..], &[written]].concat();
        let mut case: Vec<u8> = fields.into_iter().flat_map(u64::to_le_bytes).collect();
        case.extend(bytes.concat());
        self.0.write_all(&case)
    }
}
