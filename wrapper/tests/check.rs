//! The check of a list: each verdict, each refusal, and the library's own triangle.

use hinthevoun::{CheckRefusal, Layout, PathBox, Verdict, check, flatten, scan};

const ONE: u32 = 0x3f800000;
const MINUS_ZERO: u32 = 0x80000000;

/// There and back, with zeros of both signs.
const LOOP: [u32; 12] = [0, 7, 0, MINUS_ZERO, ONE, 0, 0, 8, ONE, MINUS_ZERO, MINUS_ZERO, 0];

#[test]
fn a_list_is_sound_or_its_first_bad_record_is_told() {
    assert_eq!(check(&[]), Ok(Verdict::Sound));
    assert_eq!(check(&LOOP), Ok(Verdict::Sound));
    assert_eq!(check(&LOOP[..6]), Ok(Verdict::Unbalanced(0)));
    let mut other_path = LOOP;
    other_path[6] = 1;
    assert_eq!(check(&other_path), Ok(Verdict::Unbalanced(0)));
    for bad in [f32::INFINITY, f32::NEG_INFINITY, f32::NAN] {
        let mut list = LOOP.to_vec();
        list.extend([9, 0, 0, 0, 0, bad.to_bits()]);
        assert_eq!(check(&list), Ok(Verdict::BadNumber(2)));
        // before what is out of balance, also where it stands later
        assert_eq!(check(&list[6..]), Ok(Verdict::BadNumber(1)));
    }
}

#[test]
fn the_second_word_is_ignored() {
    let mut list = LOOP;
    list[1] = f32::NAN.to_bits();
    assert_eq!(check(&list), Ok(Verdict::Sound));
}

#[test]
fn fifty_goes_before_fifty_one_and_both_before_any_record() {
    let bad = vec![u32::MAX; 6 * 2001 + 5];
    assert_eq!(check(&bad[..6 * 2000]), Ok(Verdict::BadNumber(0)));
    assert_eq!(check(&bad[..6 * 2000 + 1]), Err(CheckRefusal::Leftover));
    assert_eq!(check(&bad[..6 * 2001]), Err(CheckRefusal::TooMany));
    assert_eq!(check(&bad), Err(CheckRefusal::TooMany));
    assert_eq!(CheckRefusal::TooMany.to_string(), "refused 50: more than 2,000 records");
    assert_eq!(CheckRefusal::Leftover.to_string(), "refused 51: the length is not a multiple of six");
}

#[test]
fn a_closed_fill_of_the_library_passes() {
    let mut scene = vec![0; 76];
    scene[..2].copy_from_slice(&[0x01014020, 0x00001005]);
    scene[64..68].copy_from_slice(&[0, 3, 6 << 16, 0]);
    (scene[68], scene[71]) = (ONE, ONE);
    let layout = Layout { n_wg: 1, tag_base: 0, data_base: 64, transform_base: 68, style_base: 74 };
    let (mut prefixes, mut boxes, mut lines) = ([0; 256], [PathBox::EMPTY], [0; 18]);
    scan(&scene, 0, &mut prefixes).unwrap();
    assert_eq!(flatten(layout, &scene, &prefixes, &mut boxes, &mut lines), Ok(3));
    assert_eq!(check(&lines), Ok(Verdict::Sound));
    assert_eq!(check(&lines[6..]), Ok(Verdict::Unbalanced(0)));
}
