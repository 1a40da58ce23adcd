//! The number type that pm-remez is given: `f64` in everything but the angles.
//!
//! Every operation is the one of `f64`. Cosine, sine and arccosine are ours; outside an angle's
//! domain they give NaN, so that the Rust goes on as it does with any number that is not finite.

use crate::angles;

/// Makes a newtype over `f64` that pm-remez takes, with the angles, the magnitude, the order and the smaller of two given.
///
/// A macro, since two leaves need a type of their own (see `leaves/colleague.rs` and `leaves/edges.rs`).
#[macro_export]
macro_rules! number_type {
    (
        $(#[$doc:meta])* $name:ident,
        cos: $cos:expr, sin: $sin:expr, acos: $acos:expr, abs: $abs:expr, order: $order:expr,
        min: $min:expr $(,)?
    ) => {
        $(#[$doc])*
        #[derive(Debug, Clone, Copy, PartialEq)]
        pub struct $name(pub f64);

        impl ::std::cmp::PartialOrd for $name {
            fn partial_cmp(&self, other: &$name) -> Option<::std::cmp::Ordering> {
                ($order)(self.0, other.0)
            }
        }

        $crate::number_type!(@binary $name, Add add +, Sub sub -, Mul mul *, Div div /, Rem rem %);

        impl ::std::ops::Neg for $name {
            type Output = $name;
            fn neg(self) -> $name {
                $name(-self.0)
            }
        }

        impl ::num_traits::Zero for $name {
            fn zero() -> $name {
                $name(0.0)
            }
            fn is_zero(&self) -> bool {
                self.0 == 0.0
            }
        }

        impl ::num_traits::One for $name {
            fn one() -> $name {
                $name(1.0)
            }
        }

        impl ::num_traits::Num for $name {
            type FromStrRadixErr = <f64 as ::num_traits::Num>::FromStrRadixErr;
            fn from_str_radix(text: &str, radix: u32) -> Result<$name, Self::FromStrRadixErr> {
                <f64 as ::num_traits::Num>::from_str_radix(text, radix).map($name)
            }
        }

        impl ::num_traits::ToPrimitive for $name {
            fn to_i64(&self) -> Option<i64> {
                ::num_traits::ToPrimitive::to_i64(&self.0)
            }
            fn to_u64(&self) -> Option<u64> {
                ::num_traits::ToPrimitive::to_u64(&self.0)
            }
            fn to_f64(&self) -> Option<f64> {
                Some(self.0)
            }
        }

        impl ::num_traits::NumCast for $name {
            fn from<N: ::num_traits::ToPrimitive>(n: N) -> Option<$name> {
                n.to_f64().map($name)
            }
        }

        impl ::num_traits::FloatConst for $name {
            $crate::number_type!(@constants $name, E FRAC_1_PI FRAC_1_SQRT_2 FRAC_2_PI FRAC_2_SQRT_PI
                FRAC_PI_2 FRAC_PI_3 FRAC_PI_4 FRAC_PI_6 FRAC_PI_8 LN_10 LN_2 LOG10_E LOG2_E PI SQRT_2
                TAU);
        }

        impl ::num_traits::Float for $name {
            fn cos(self) -> $name {
                $name(($cos)(self.0))
            }
            fn sin(self) -> $name {
                $name(($sin)(self.0))
            }
            fn acos(self) -> $name {
                $name(($acos)(self.0))
            }
            fn abs(self) -> $name {
                $name(($abs)(self.0))
            }
            fn min(self, other: $name) -> $name {
                $name(($min)(self.0, other.0))
            }

            fn sin_cos(self) -> ($name, $name) {
                (self.sin(), self.cos())
            }
            fn classify(self) -> ::std::num::FpCategory {
                self.0.classify()
            }
            fn powi(self, n: i32) -> $name {
                $name(self.0.powi(n))
            }
            fn mul_add(self, a: $name, b: $name) -> $name {
                $name(self.0.mul_add(a.0, b.0))
            }
            fn integer_decode(self) -> (u64, i16, i8) {
                ::num_traits::Float::integer_decode(self.0)
            }

            $crate::number_type!(@special $name, nan infinity neg_infinity neg_zero min_value
                min_positive_value max_value);
            $crate::number_type!(@asked $name, is_nan is_infinite is_finite is_normal
                is_sign_positive is_sign_negative);
            $crate::number_type!(@one $name, floor ceil round trunc fract signum recip sqrt exp exp2
                ln log2 log10 cbrt tan asin atan exp_m1 ln_1p sinh cosh tanh asinh acosh atanh);
            $crate::number_type!(@two $name, powf log max abs_sub hypot atan2);
        }
    };

    (@binary $name:ident, $($trait:ident $method:ident $sign:tt),*) => { $(
        impl ::std::ops::$trait for $name {
            type Output = $name;
            fn $method(self, other: $name) -> $name {
                $name(self.0 $sign other.0)
            }
        }
    )* };
    (@constants $name:ident, $($constant:ident)*) => { $(
        fn $constant() -> $name {
            $name(::std::f64::consts::$constant)
        }
    )* };
    (@special $name:ident, $($method:ident)*) => { $(
        fn $method() -> $name {
            $name(<f64 as ::num_traits::Float>::$method())
        }
    )* };
    (@asked $name:ident, $($method:ident)*) => { $(
        fn $method(self) -> bool {
            self.0.$method()
        }
    )* };
    (@one $name:ident, $($method:ident)*) => { $(
        fn $method(self) -> $name {
            $name(self.0.$method())
        }
    )* };
    (@two $name:ident, $($method:ident)*) => { $(
        fn $method(self, other: $name) -> $name {
            $name(<f64 as ::num_traits::Float>::$method(self.0, other.0))
        }
    )* };
}

number_type!(
    /// An `f64` with our angles.
    Number,
    cos: |x| angles::cosine(x).unwrap_or(f64::NAN),
    sin: |x| angles::sine(x).unwrap_or(f64::NAN),
    acos: |x| angles::arccosine(x).unwrap_or(f64::NAN),
    abs: f64::abs,
    order: |a: f64, b: f64| a.partial_cmp(&b),
    min: f64::min,
);

/// A list of `f64` as pm-remez takes it.
pub fn numbers(list: &[f64]) -> Vec<Number> {
    list.iter().copied().map(Number).collect()
}

/// A list from pm-remez as `f64`.
pub fn plain(list: impl IntoIterator<Item = Number>) -> Vec<f64> {
    list.into_iter().map(|x| x.0).collect()
}
