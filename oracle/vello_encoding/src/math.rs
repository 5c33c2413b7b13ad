/// The value of an IEEE 754 binary16, exactly.
pub fn f16_to_f32(bits: u16) -> f32 {
    let exponent = u32::from(bits >> 10 & 31);
    let fraction = f32::from(bits & 0x3ff);
    let size = match exponent {
        0 => fraction * power_of_two(-24),
        31 if fraction == 0. => f32::INFINITY,
        31 => f32::NAN,
        _ => (1024. + fraction) * power_of_two(exponent as i32 - 25),
    };
    if bits >> 15 == 0 { size } else { -size }
}

/// 2^n, where that is a normal number.
fn power_of_two(n: i32) -> f32 {
    f32::from_bits(((n + 127) as u32) << 23)
}
