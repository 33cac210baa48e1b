//! The plain Rust implementation against the cases worked out by hand, and so the maker of older
//! images.

use differential::ask::Ask;
use differential::cases::{self, sheet_a, sheet_b, Versioned};
use differential::images::GROWING;
use differential::library::Reference;
use differential::model::EARLIER;
use differential::start_cases::{older, over_pattern};

#[test]
fn reference_answers_every_case() {
    for (name, case) in cases::all() {
        println!("{name}");
        case(&Reference);
    }
}

/// Document 01's numbers are those of the library before W-211.
#[test]
fn older_images_are_made_as_document_01_has_them() {
    for version in GROWING {
        let earlier = Versioned { library: &EARLIER, version };
        let mut image = over_pattern(&earlier, 1024, 2, 1);
        for (sheet, whole, copied, end) in [(sheet_a(), 23, 0, 400), (sheet_b(), 43, 1, 552)] {
            assert_eq!(earlier.after(&image[..end - 1], &sheet, 0).1, Err(29));
            assert_eq!(earlier.after(&image[..end], &sheet, 0).1, Ok([0, whole, copied]));
            assert_eq!(earlier.put(&mut image, &sheet, u64::MAX), Ok([whole, whole, copied]));
        }
        assert_eq!(image, older(&earlier));
        let names = earlier.fresh(352, 1, 1).map(|image| image[24..32].to_vec());
        assert_eq!(names, Ok(288_u64.to_le_bytes().to_vec()));
        assert_eq!(earlier.fresh(351, 1, 1), Err(52));
    }
}
