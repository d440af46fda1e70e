//! What random calls reach: jumps, branches and calls across the top of memory, of
//! each type, in both classes and both directions, with bit 0 of e_flags set and
//! clear.

use std::collections::BTreeMap;

use reference::object::{Header, Object};
use reference::order::Order;
use reference::placement::addresses;
use reference::symbol::Symbols;
use reference::{judge, Class};
use testing::random::Random;
use testing::sample::{call, Call};

const CALLS: u64 = 30_000;
const IMAGE_LENGTH: usize = 300;

/// BRANCH, JAL, CALL and CALL_PLT; then RVC_BRANCH and RVC_JUMP.
const JUMPS: [u32; 6] = [16, 17, 18, 19, 44, 45];

/// Whether bit 0 is set, the bytes of an address, and the type.
type Kind = (bool, usize, u32);

/// What is seen of a jump.
#[derive(Default, Debug)]
struct Seen {
    /// How often it goes around the end of memory, down and up.
    across: [u64; 2],
    /// By the distance modulo 4.
    distances: [u64; 4],
    /// How often it is at an address of 2 modulo 4.
    beside: u64,
}

/// Adds the jumps of a call, which is done.
fn see(call: &Call, seen: &mut BTreeMap<Kind, Seen>) {
    let header = Header::read(&call.object).expect("a done call");
    let class = header.class;
    let object = Object::read(&call.object, header).expect("a done call");
    let order = Order::read(&call.order, class).expect("a done call");
    let symbols = Symbols {
        object: &object,
        addresses: addresses(&order),
        external_values: &order.external_values,
    };
    for list in object.relocation_sections() {
        let jumps = list.relocations.iter();
        for jump in jumps.filter(|one| JUMPS.contains(&one.kind)) {
            let s = symbols.value(jump.symbol).expect("a done call");
            let t = (s + i128::from(jump.addend)).rem_euclid(class.address_end());
            let p = i128::from(symbols.addresses[list.target].0 + jump.offset.0);
            let reduced = class.signed(t - p);
            let kind = (object.has_compressed(), class.address_bytes(), jump.kind);
            let seen = seen.entry(kind).or_default();
            if reduced != t - p {
                seen.across[usize::from(t < p)] += 1;
            }
            seen.distances[reduced.rem_euclid(4) as usize] += 1;
            seen.beside += u64::from(p % 4 == 2);
        }
    }
}

#[test]
fn jumps_of_done_calls() {
    let mut seen = BTreeMap::new();
    let mut done = [0_u64; 2];
    for seed in 0..CALLS {
        let call = call(&mut Random::new(seed), IMAGE_LENGTH);
        if judge(&call.object, &call.order, IMAGE_LENGTH).is_ok() {
            let header = Header::read(&call.object).expect("a done call");
            let object = Object::read(&call.object, header).expect("a done call");
            done[usize::from(object.has_compressed())] += 1;
            see(&call, &mut seen);
        }
    }
    println!("{done:?}\n{seen:#?}");
    // Bit 0 is clear in one of three, and most calls are done.
    assert!(done[0] >= CALLS / 4 && done[1] >= CALLS / 2, "{done:?}");
    for class in Class::ALL {
        for kind in JUMPS {
            for is_set in [false, true] {
                let which = (is_set, class.address_bytes(), kind);
                let is_short = kind >= 44;
                let Some(seen) = seen.get(&which) else {
                    assert!(is_short && !is_set, "{which:?} occurs");
                    continue;
                };
                assert!(!is_short || is_set, "{which:?} does not occur");
                let [multiples, odd, even, also_odd] = seen.distances;
                assert!(multiples >= 500 && odd + also_odd == 0, "{which:?}");
                assert_eq!(even >= 500, is_set, "{which:?}, {even}");
                assert!(is_set || even == 0, "{which:?}, {even}");
                assert!(seen.across.iter().all(|count| *count >= 30), "{which:?}");
                assert!(seen.beside >= 300, "{which:?}");
            }
        }
    }
}
