//! Images of edition one that every run of the program is tried with: those of document 01,
//! and those at the limits of its input and its findings.

use crate::example::bond_report;
use crate::export::export;
use crate::format::{Edition, IMAGE_LIMIT};
use crate::generate::bounds::full_enum;
use crate::generate::findings::many_findings;

/// The worked example of document 01.
const EXAMPLE: [u8; 26] = [
    1, 0, 2, 2, 0, 0, 0, 2, 0, 4, 1, 5, 7, 0, 2, 0, 0, 3, 0, 0, 1, 0, 3, 2, 0, 1,
];

pub fn specials() -> Vec<Vec<u8>> {
    let mut images = vec![vec![], vec![0; 3], EXAMPLE.to_vec()];
    images.push(export(&bond_report(), Edition::One).expect("the example fits"));
    for length in [IMAGE_LIMIT, IMAGE_LIMIT + 1] {
        images.push(full_enum(length, Edition::One).bytes(Edition::One));
    }
    for kind in 0..3 {
        let findings = [1_000, 1_001];
        images.extend(findings.map(|findings| many_findings(findings, kind).bytes(Edition::One)));
    }
    images
}
