//! What is counted of a package: the parts that its inputs belong to, and whether it is untrimmed.

use crate::part::Part;
use oracle::coefficients::GF_256;
use oracle::inclusions::is_untrimmed;
use oracle::leads::leads_otherwise;
use oracle::package::{read, stated_p, Package};

/// The facts of a package. They are kept until another package comes, since inputs about one package come together.
#[derive(Default)]
pub struct Facts {
    bytes: Vec<u8>,
    pub parts: Vec<Part>,
    /// The package, where it reads and a leading word stands inside another polynomial's.
    pub untrimmed: Option<Package>,
}

impl Facts {
    /// Makes these the facts of a package.
    pub fn of(&mut self, bytes: &[u8]) -> &Facts {
        if self.parts.is_empty() || self.bytes != bytes {
            let package = read(bytes).ok();
            let over_256 = stated_p(bytes) == Some(GF_256);
            let scaled = package.as_ref().is_some_and(|package| leads_otherwise(&package.basis));
            let untrimmed = package.filter(|package| is_untrimmed(&package.basis));
            let parts = Part::with(over_256, scaled, untrimmed.is_some());
            *self = Facts { bytes: bytes.to_vec(), parts, untrimmed };
        }
        self
    }
}
