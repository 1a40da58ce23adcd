//! The stored list: places of each function with the host's values.

use crate::function::{FUNCTIONS, Function};
use crate::places::{Mixed, TURNS, around, power_of_two};
use std::collections::HashSet;
use std::ffi::{CStr, c_char};

/// Lines of the list, for each function.
const LINES: usize = 1500;

unsafe extern "C" {
    fn gnu_get_libc_version() -> *const c_char;
}

fn library() -> String {
    // SAFETY: the C library answers a string of its own, which stays.
    let version = unsafe { CStr::from_ptr(gnu_get_libc_version()) };
    format!(
        "glibc {} on {}",
        version.to_string_lossy(),
        std::env::consts::ARCH
    )
}

fn places(function: Function) -> Vec<f64> {
    let mut places = vec![0.0, -0.0];
    for turn in TURNS {
        places.extend(around(turn, 8));
        places.extend(around(-turn, 8));
    }
    let exponents = (-1074..=-1062)
        .chain(-1026..=-1018)
        .chain((-1000..-64).step_by(72))
        .chain(-64..=1);
    for exponent in exponents {
        let x = power_of_two(exponent);
        places.extend(around(x, 1));
        places.extend(around(-x, 1));
    }
    places.retain(|x| function.takes(*x));
    let mut seen = HashSet::new();
    places.retain(|x| seen.insert(x.to_bits()));
    let (first, last) = function.domain();
    let left = LINES - places.len();
    let mut mixed = Mixed(function as u64);
    places.extend(
        (0..left).map(|i| first + (last - first) * ((i as f64 + mixed.part()) / left as f64)),
    );
    places
}

pub fn list() {
    println!(
        "# The angle functions at {LINES} places each, with the values of the host's C library ({}).",
        library()
    );
    println!(
        "# Made by oracle/angles/values. A line: function, place, value; numbers as the 16 hexadecimal digits of their bits."
    );
    println!(
        "# First the special places of the domain (0 and -0.0, subnormals, powers of two, folds and ends, with neighbours), then places spread over it."
    );
    for function in FUNCTIONS {
        println!(
            "# {} on {} to {}",
            function.name(),
            function.domain().0,
            function.domain().1
        );
        for place in places(function) {
            println!(
                "{} {:016x} {:016x}",
                function.name(),
                place.to_bits(),
                function.host(place).to_bits()
            );
        }
    }
}
