//! The methods of f32 that only std has, answered by the proved library, or as the scope paper says.

unsafe extern "C" {
    safe fn hinth_sqrt(x: f32) -> f32;
    safe fn hinth_hypot(x: f32, y: f32) -> f32;
    safe fn hinth_cbrt(x: f32) -> f32;
    safe fn hinth_two_thirds(x: f32) -> f32;
    safe fn hinth_sin(x: f32) -> f32;
    safe fn hinth_cos(x: f32) -> f32;
    safe fn hinth_atan2(y: f32, x: f32) -> f32;
    safe fn hinth_asin(x: f32) -> f32;
    safe fn hinth_acos(x: f32) -> f32;
}

/// From here on every f32 is a whole number.
const ALL_WHOLE: f32 = 8_388_608.;

pub trait Ours: Sized {
    fn sqrt(self) -> f32;
    fn hypot(self, other: f32) -> f32;
    fn cbrt(self) -> f32;
    fn powf(self, n: f32) -> f32;
    fn powi(self, n: i32) -> f32;
    fn sin(self) -> f32;
    fn cos(self) -> f32;
    fn atan2(self, other: f32) -> f32;
    fn sin_cos(self) -> (f32, f32);
    fn asin(self) -> f32;
    fn acos(self) -> f32;
    fn floor(self) -> f32;
    fn ceil(self) -> f32;
}

impl Ours for f32 {
    fn sqrt(self) -> f32 {
        hinth_sqrt(self)
    }

    fn hypot(self, other: f32) -> f32 {
        hinth_hypot(self, other)
    }

    fn cbrt(self) -> f32 {
        hinth_cbrt(self)
    }

    fn powf(self, n: f32) -> f32 {
        assert_eq!(n, 2. / 3., "the source raises to two thirds only");
        hinth_two_thirds(self)
    }

    fn powi(self, n: i32) -> f32 {
        match n {
            2 => self * self,
            5 => self * ((self * self) * (self * self)),
            _ => panic!("the source raises to 2 and to 5 only"),
        }
    }

    fn sin(self) -> f32 {
        hinth_sin(self)
    }

    fn cos(self) -> f32 {
        hinth_cos(self)
    }

    fn atan2(self, other: f32) -> f32 {
        hinth_atan2(self, other)
    }

    fn sin_cos(self) -> (f32, f32) {
        (hinth_sin(self), hinth_cos(self))
    }

    fn asin(self) -> f32 {
        hinth_asin(self)
    }

    fn acos(self) -> f32 {
        hinth_acos(self)
    }

    fn floor(self) -> f32 {
        let toward_zero = self as i32 as f32;
        if !(self.abs() < ALL_WHOLE) {
            self
        } else if toward_zero > self {
            toward_zero - 1.
        } else {
            toward_zero.copysign(self)
        }
    }

    fn ceil(self) -> f32 {
        -Ours::floor(-self)
    }
}
