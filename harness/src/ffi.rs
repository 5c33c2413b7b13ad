//! The functions under test, declared as in include/hinthevoun.h. Each takes and returns plain numbers and touches no
//! memory of the caller's, so every call is safe.

/// Declares exported functions, and for each a Rust function that calls it.
macro_rules! exported {
    ($($symbol:ident as $name:ident($($argument:ident: $type:ty),+);)+) => {
        unsafe extern "C" {
            $(safe fn $symbol($($argument: $type),+) -> f32;)+
        }
        $(#[inline(always)]
        pub fn $name($($argument: $type),+) -> f32 {
            $symbol($($argument),+)
        })+
    };
}

exported! {
    hinth_sqrt as sqrt(x: f32);
    hinth_hypot as hypot(x: f32, y: f32);
    hinth_cbrt as cbrt(x: f32);
    hinth_two_thirds as two_thirds(x: f32);
    hinth_half as half(word: u32);
}

exported! {
    hinth_sin as sin(x: f32);
    hinth_cos as cos(x: f32);
    hinth_atan2 as atan2(y: f32, x: f32);
    hinth_asin as asin(x: f32);
    hinth_acos as acos(x: f32);
}
