//! The proved square root against the processor's, where it is linked; and that
//! the values notice wrong roots.

use facetings_host::measure::roots::{compare, expected, proved, LINKED};

const COUNT: u64 = 2_000_000;

#[test]
fn the_proved_root_is_the_processors() {
    if !LINKED {
        println!("skipped: the proved root is not linked (./library root)");
        return;
    }
    let (compared, wrong) = compare(proved, 5, COUNT);
    assert!(compared > COUNT);
    assert_eq!(wrong, [0.0; 0]);
}

/// Each fault is one that a porter may make.
#[test]
fn wrong_roots_are_noticed() {
    type Root = fn(f64) -> f64;
    let faults: [(&str, Root); 5] = [
        ("+0 for -0", |x| expected(x) + 0.0),
        ("a root of the infinity", f64::sqrt),
        ("single precision", |x| f64::from((x as f32).sqrt())),
        ("the next double at subnormals", |x| {
            let r = expected(x);
            f64::from_bits(r.to_bits() + u64::from(x > 0.0 && x < f64::MIN_POSITIVE))
        }),
        ("cut off instead of rounded", |x| {
            let r = expected(x);
            let high = r.is_normal() && r.mul_add(r, -x) > 0.0;
            f64::from_bits(r.to_bits() - u64::from(high))
        }),
    ];
    for (fault, root) in faults {
        let (_, wrong) = compare(root, 5, 100_000);
        assert!(!wrong.is_empty(), "{fault} goes unnoticed");
    }
}
