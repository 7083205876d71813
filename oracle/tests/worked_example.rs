//! The image of document 01 that is worked out whole, and the smallest ones.

use oracle::answer::{answer, lines, Answer, PROGRAM_PLACES};
use oracle::format::Edition;
use oracle::import::{import, Refusal};

const EXAMPLE: [u8; 26] = [
    0x01, 0x00, 0x02, 0x02, 0x00, 0x00, 0x00, 0x02, 0x00, 0x04, 0x01, 0x05, 0x07, 0x00, 0x02, 0x00,
    0x00, 0x03, 0x00, 0x00, 0x01, 0x00, 0x03, 0x02, 0x00, 0x01,
];

fn output(image: &[u8]) -> String {
    lines(&answer(image, Edition::One, PROGRAM_PLACES).expect("a short check"))
}

#[test]
fn example_gives_its_lines() {
    let expected = "vexil-typeck 1\nsize 0 4 3 0\nsize 1 2 11 43\nend 0\n";
    assert_eq!(output(&EXAMPLE), expected);
}

#[test]
fn example_has_its_slot_starts() {
    let imported = import(&EXAMPLE, Edition::One).expect("accepted");
    assert_eq!(imported.starts, [3, 10]);
    assert_eq!(imported.finds, [None]);
}

#[test]
fn smallest_image_is_accepted() {
    assert_eq!(output(&[0, 0, 0]), "vexil-typeck 1\nend 0\n");
}

#[test]
fn empty_image_is_refused() {
    let refusal = Refusal {
        number: 2,
        place: 0,
        added: None,
    };
    assert_eq!(import(&[], Edition::One).err(), Some(refusal));
    assert_eq!(output(&[]), "vexil-typeck 1\nrefused 2 0\n");
}

#[test]
fn places_are_tested_in_order() {
    let mut places = PROGRAM_PLACES;
    places.sizes = 5;
    let refused = answer(&EXAMPLE, Edition::One, places).expect("a short check");
    let expected = Answer::Refused {
        number: 10,
        place: 0,
    };
    assert_eq!(refused, expected);
    places.sizes = 6;
    assert!(matches!(
        answer(&EXAMPLE, Edition::One, places),
        Ok(Answer::Accepted { count: 0, .. })
    ));
}
