//! The profile for lay-up sheets: a test of a scene before it is flattened.

use crate::{Layout, ffi};

/// What a scene that passes has.
#[derive(Clone, Copy, Debug, PartialEq, Eq)]
pub struct Passed {
    pub segments: u64,
    pub subpaths: u64,
}

/// The rules of the profile, in their order.
#[derive(Clone, Copy, Debug, PartialEq, Eq)]
pub enum Rule {
    /// No stroke style on segments and path tags: refusal 70.
    Stroke,
    /// No even-odd bit on them: refusal 71.
    EvenOdd,
    /// Points of f32 only: refusal 72.
    Wide,
    /// One transform for the sheet, with no shear: refusal 73.
    Transform,
    /// Every subpath finished by an end bit on a segment, on its first point, and no end bit on other tags: refusal 74.
    Subpath,
    /// At most 4,096 segments: refusal 75.
    TooMany,
}

impl Rule {
    pub fn number(self) -> u32 {
        70 + self as u32
    }
}

/// Why a scene does not pass, and at which tag.
#[derive(Clone, Copy, Debug, PartialEq, Eq)]
pub enum ProfileRefusal {
    /// A read that flattening makes too: refusal 1, 2 or 3.
    Unread { number: u32, tag: u64 },
    /// The first rule that this tag breaks; no tag before it breaks one.
    Against { rule: Rule, tag: u64 },
}

impl ProfileRefusal {
    pub fn number(self) -> u32 {
        match self {
            ProfileRefusal::Unread { number, .. } => number,
            ProfileRefusal::Against { rule, .. } => rule.number(),
        }
    }

    pub fn tag(self) -> u64 {
        match self {
            ProfileRefusal::Unread { tag, .. } | ProfileRefusal::Against { tag, .. } => tag,
        }
    }
}

impl std::fmt::Display for ProfileRefusal {
    fn fmt(&self, f: &mut std::fmt::Formatter) -> std::fmt::Result {
        let why = match self {
            ProfileRefusal::Unread { number: 1, .. } => "a base lies past the scene's end",
            ProfileRefusal::Unread { number: 2, .. } => "a read falls outside the scene",
            ProfileRefusal::Unread { .. } => "a tag prefix is missing",
            ProfileRefusal::Against { rule, .. } => match rule {
                Rule::Stroke => "it has a stroke style",
                Rule::EvenOdd => "its style has the even-odd bit",
                Rule::Wide => "its points are not f32",
                Rule::Transform => "its transform is not the sheet's, or has shear",
                Rule::Subpath => "its subpath is not finished on its first point, or it has an end bit and no segment",
                Rule::TooMany => "it is the 4,097th segment",
            },
        };
        write!(f, "refused {} at {}: {why}", self.number(), self.tag())
    }
}

impl std::error::Error for ProfileRefusal {}

/// Tests a scene against the profile. It reads what [`crate::flatten`] reads, as if every path had a box, and writes nothing.
///
/// ```
/// use hinthevoun::{Layout, Passed, ProfileRefusal, Rule, profile, scan};
///
/// // a transform, a style, two lines there and back of which the second ends the subpath, a path, and nothing more;
/// // then the points (0, 0), (3, 6), (0, 0), the identity and a style that fills
/// let one = 1.0f32.to_bits();
/// let mut scene = vec![0x0d09_4020, 0x10];
/// scene.resize(64, 0);
/// scene.extend([0, 0, 3.0f32.to_bits(), 6.0f32.to_bits(), 0, 0, one, 0, 0, one, 0, 0, 0, 0]);
/// let layout = Layout { n_wg: 1, tag_base: 0, data_base: 64, transform_base: 70, style_base: 76 };
/// let mut prefixes = [0; 256];
/// scan(&scene, layout.tag_base, &mut prefixes).unwrap();
/// assert_eq!(profile(layout, &scene, &prefixes), Ok(Passed { segments: 2, subpaths: 1 }));
/// scene[71] = one;
/// assert_eq!(profile(layout, &scene, &prefixes), Err(ProfileRefusal::Against { rule: Rule::Transform, tag: 2 }));
/// ```
pub fn profile(layout: Layout, scene: &[u32], prefixes: &[u32]) -> Result<Passed, ProfileRefusal> {
    let (number, [tag, segments, subpaths]) = ffi::profile(layout, scene, prefixes);
    if number == 0 { Ok(Passed { segments, subpaths }) } else { Err(refused(number, tag)) }
}

/// The refusal of a number that is not 0.
pub(crate) fn refused(number: u32, tag: u64) -> ProfileRefusal {
    let against = |rule| ProfileRefusal::Against { rule, tag };
    match number {
        70 => against(Rule::Stroke),
        71 => against(Rule::EvenOdd),
        72 => against(Rule::Wide),
        73 => against(Rule::Transform),
        74 => against(Rule::Subpath),
        75 => against(Rule::TooMany),
        _ => ProfileRefusal::Unread { number, tag },
    }
}
