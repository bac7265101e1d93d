//! The names and signatures of lexical-parse-float's `libm.rs`. A crate that has it as `mod libm;` takes this
//! one instead by the line `use igholmaz::libm;`.
//!
//! ```
//! use igholmaz::libm;
//! assert_eq!(libm::sqrtf(2.0), 1.4142135);
//! assert_eq!(libm::scalbnd(1.0, -1074), 5e-324);
//! assert_eq!(libm::powd(10.0, 22.0), 1e22);
//! ```

macro_rules! floats {
    ($float:ident: $fabs:ident $scalbn:ident $sqrt:ident $pow:ident) => {
        /// The absolute value: the sign bit cleared, every other bit kept.
        #[inline]
        pub fn $fabs(x: $float) -> $float {
            $float::from_bits(crate::$fabs(x.to_bits()))
        }
        /// x times 2^n, rounded once.
        #[inline]
        pub fn $scalbn(x: $float, n: i32) -> $float {
            $float::from_bits(crate::$scalbn(x.to_bits(), n))
        }
        /// The square root, rounded once.
        #[inline]
        pub fn $sqrt(x: $float) -> $float {
            $float::from_bits(crate::$sqrt(x.to_bits()))
        }
        /// x to the y.
        #[inline]
        pub fn $pow(x: $float, y: $float) -> $float {
            $float::from_bits(crate::$pow(x.to_bits(), y.to_bits()))
        }
    };
}

floats!(f32: fabsf scalbnf sqrtf powf);
floats!(f64: fabsd scalbnd sqrtd powd);
