//! The profile for lay-up sheets, rule by rule.

use hinthevoun::{Layout, Passed, ProfileRefusal, Rule, profile, scan};

const ONE: u32 = 0x3f80_0000;
const LAYOUT: Layout = Layout { n_wg: 1, tag_base: 0, data_base: 64, transform_base: 72, style_base: 84 };

/// A triangle of three lines, tags 2 to 4, behind a transform and a style; two transforms and two styles are there.
fn scene() -> Vec<u32> {
    let mut words = vec![0x0909_4020, 0x0000_100d];
    words.resize(64, 0);
    words.extend([0, 0, ONE, 0, ONE, ONE, 0x8000_0000, 0]);
    words.extend([ONE, 0, 0x8000_0000, ONE, 0, 0, ONE, 0, 0, ONE, 0, 0]);
    words.extend([0, 0, 0x8000_0000, ONE]);
    words
}

fn tested(scene: &[u32]) -> Result<Passed, ProfileRefusal> {
    let mut prefixes = [0; 256];
    scan(scene, LAYOUT.tag_base, &mut prefixes).unwrap();
    profile(LAYOUT, scene, &prefixes)
}

fn with(at: usize, word: u32) -> Result<Passed, ProfileRefusal> {
    let mut words = scene();
    words[at] = word;
    tested(&words)
}

fn against(rule: Rule, tag: u64) -> Result<Passed, ProfileRefusal> {
    Err(ProfileRefusal::Against { rule, tag })
}

#[test]
fn a_closed_outline_passes() {
    assert_eq!(tested(&scene()), Ok(Passed { segments: 3, subpaths: 1 }));
    assert_eq!(with(84, 1), Ok(Passed { segments: 3, subpaths: 1 }));
}

#[test]
fn each_rule_by_itself() {
    assert_eq!(with(84, 0x8000_0000), against(Rule::Stroke, 2));
    assert_eq!(with(84, 0x4000_0000), against(Rule::EvenOdd, 2));
    assert_eq!(with(84, 0xc000_0000), against(Rule::Stroke, 2));
    assert_eq!(with(0, 0x0901_4020), against(Rule::Wide, 2));
    assert_eq!(with(73, ONE), against(Rule::Transform, 2));
    assert_eq!(with(74, ONE), against(Rule::Transform, 2));
    assert_eq!(with(0, 0x2909_4020), against(Rule::Transform, 4));
    assert_eq!(with(70, ONE), against(Rule::Subpath, 4));
    assert_eq!(with(1, 0x0000_1009), against(Rule::Subpath, 4));
    assert_eq!(with(1, 0x0000_140d), against(Rule::Subpath, 5));
}

#[test]
fn reads_come_before_rules() {
    let mut words = scene();
    words[73] = ONE;
    words[1] |= 0x0900_0000;
    words.truncate(86);
    assert_eq!(tested(&words).unwrap_err().number(), 73);
    words[1] |= 0x4000_0000;
    words[2] = 0x10;
    assert_eq!(tested(&words), Err(ProfileRefusal::Unread { number: 2, tag: 8 }));
    assert_eq!(profile(LAYOUT, &words[..60], &[]), Err(ProfileRefusal::Unread { number: 1, tag: 0 }));
    assert_eq!(profile(LAYOUT, &scene(), &[]), Err(ProfileRefusal::Unread { number: 3, tag: 0 }));
}

#[test]
fn numbers_and_tags_are_told() {
    let refusal = with(70, ONE).unwrap_err();
    assert_eq!((refusal.number(), refusal.tag()), (74, 4));
    assert!(refusal.to_string().starts_with("refused 74 at 4: "));
}
