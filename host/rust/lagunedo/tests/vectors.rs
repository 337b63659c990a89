//! Every vector of `vectors/eme2`, both ways, by the library and by the second
//! implementation.

mod common;

use common::{by_second, library};
use inputs::eme2::{files, folder, Call, File, Vector};

/// Who is held to the vectors.
const CALLS: [(&str, Call); 2] = [
    ("the library", &|key, back, ad, message| {
        library(key, back, ad, message, message.len())
    }),
    ("the second implementation", &by_second),
];

fn all() -> Vec<File> {
    files(&folder()).unwrap_or_else(|fault| panic!("vectors/eme2: {fault}"))
}

/// Prints every vector that does not hold, with its file.
#[test]
fn every_vector() {
    let mut wrong = 0;
    for file in all() {
        for vector in &file.vectors {
            for (who, call) in CALLS {
                if let Err(why) = vector.check(call) {
                    wrong += 1;
                    println!("{}: {}: {who}: {why}", file.name, vector.name);
                }
            }
        }
        println!("{}: {} vectors", file.name, file.vectors.len());
    }
    assert_eq!(wrong, 0, "vectors that do not hold");
}

/// The vector with one bit changed in each place of each field in turn.
fn changed(vector: &Vector) -> Vec<Vector> {
    let fields: [fn(&mut Vector) -> &mut Vec<u8>; 4] = [
        |v| &mut v.key,
        |v| &mut v.ad,
        |v| &mut v.plain,
        |v| &mut v.cipher,
    ];
    let mut all = Vec::new();
    for field in fields {
        for place in 0..field(&mut vector.clone()).len() {
            let mut vector = vector.clone();
            field(&mut vector)[place] ^= 1 << (place % 8);
            all.push(vector);
        }
    }
    all
}

/// The test above can fail: no vector holds any more once a byte of it is
/// changed. The short ones are tried, since they are tried once a byte.
#[test]
fn changed_byte_is_caught() {
    let mut tried = 0;
    let vectors = all().into_iter().flat_map(|file| file.vectors);
    for vector in vectors.filter(|v| v.plain.len() <= 100) {
        for changed in changed(&vector) {
            for (who, call) in CALLS {
                assert!(changed.check(call).is_err(), "{}: {who}", vector.name);
                tried += 1;
            }
        }
    }
    assert!(tried > 0, "no vector is short");
}

/// Nor does a vector hold once its key's fields are taken in another order,
/// unless they are equal.
#[test]
fn other_order_is_caught() {
    let mut tried = 0;
    for vector in all().into_iter().flat_map(|file| file.vectors) {
        let mut turned = vector.clone();
        turned.key.rotate_left(16);
        if turned.key == vector.key {
            continue;
        }
        for (who, call) in CALLS {
            assert!(turned.check(call).is_err(), "{}: {who}", vector.name);
            tried += 1;
        }
    }
    assert!(tried > 0, "no key has fields that differ");
}
