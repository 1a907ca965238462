//! What each word does.

use crate::lanes::{active, extended, lane, set_lane, sum_of_active};
use crate::patterns::pattern_lanes;
use crate::words::{Fields, Form, TABLE};

/// Executes an accepted word over files of the right sizes.
pub fn execute(fields: &Fields, k: usize, z: &mut [u8], p: &mut [u8]) {
    if TABLE[fields.row].writes_predicate() {
        write_predicate(fields, k, &mut p[fields.d * 2 * k..][..2 * k]);
    } else {
        write_vector(fields, k, z, p);
    }
}

/// The bit at e * width for each lane e that the pattern makes active, and no other.
fn write_predicate(fields: &Fields, k: usize, register: &mut [u8]) {
    let width = 1 << fields.size;
    let active = match TABLE[fields.row].form {
        Form::Made => pattern_lanes(fields.pattern, 16 * k / width),
        _ => 0,
    };
    register.fill(0);
    for bit in (0..active).map(|e| e * width) {
        register[bit / 8] |= 1 << (bit % 8);
    }
}

fn write_vector(fields: &Fields, k: usize, z: &mut [u8], p: &[u8]) {
    let bytes = 16 * k;
    let vector = |number: usize| &z[number * bytes..][..bytes];
    let (old, source, second) = (vector(fields.d), vector(fields.n), vector(fields.m));
    let predicate = &p[fields.g * 2 * k..][..2 * k];
    let width = 1 << fields.size;
    let half = width / 2;
    let lanes = bytes / width;

    // The new destination; bytes that no form writes stay zero.
    let mut result = [0; 256];
    match TABLE[fields.row].form {
        Form::Across { signed } => {
            let sum = sum_of_active(source, predicate, width, signed, 0..lanes);
            set_lane(&mut result, 8, 0, sum);
        }
        Form::Segments => {
            let places = 16 / width;
            for e in 0..lanes {
                if active(predicate, width, e) {
                    let place = e % places;
                    let sum = lane(&result, width, place).wrapping_add(lane(source, width, e));
                    set_lane(&mut result, width, place, sum);
                }
            }
        }
        Form::LongAcross { signed } => {
            let sum = (0..(8 << fields.q) / width)
                .map(|e| extended(source, width, e, signed))
                .fold(0, u64::wrapping_add);
            set_lane(&mut result, 2 * width, 0, sum);
        }
        Form::Pairs { signed } => {
            for e in 0..lanes {
                let mut value = lane(old, width, e);
                if active(predicate, width, e) {
                    value = value
                        .wrapping_add(extended(source, half, 2 * e, signed))
                        .wrapping_add(extended(source, half, 2 * e + 1, signed));
                }
                set_lane(&mut result, width, e, value);
            }
        }
        Form::Widening { signed, top, wide, subtract } => {
            for e in 0..lanes {
                let narrow = |bytes: &[u8]| extended(bytes, half, 2 * e + top, signed);
                let first = if wide { lane(source, width, e) } else { narrow(source) };
                let value = if subtract {
                    first.wrapping_sub(narrow(second))
                } else {
                    first.wrapping_add(narrow(second))
                };
                set_lane(&mut result, width, e, value);
            }
        }
        Form::Made | Form::Cleared => unreachable!("a word that writes a vector"),
    }
    z[fields.d * bytes..][..bytes].copy_from_slice(&result[..bytes]);
}
