//! The stack that a call needs is at most what the header and the binding say.

use aktinoph::{Calls, STACK};
use compare::stack::needed;
use testing::build::{journal, object, order, Class, Relocation, Section, Symbol};
use testing::given::objects;
use testing::jumps::every_jump;
use testing::limits::{limits, Limit};

const PCREL_HI20: u32 = 23;
const PCREL_LO12_I: u32 = 24;
const AUIPC: u32 = 0x517;
const ADDI: u32 = 0x50513;
const BASE: u64 = 0x2000_0000;

/// The stack of a fit, and of a list that has it and its taking-back.
fn of_both(object: &[u8], order: &[u8], length: usize) -> (usize, usize) {
    let mut calls = Calls::new();
    calls.fit(object, order).take_back();
    let mut answers = [0; 2];
    let (mut image, mut ledger) = (vec![0xA5; length], journal(length));
    let list = needed(&mut || {
        let _ = aktinoph::replay_bytes(calls.as_bytes(), &mut image, &mut ledger, &mut answers);
    });
    let fit = needed(&mut || {
        let _ = aktinoph::fit(object, order, &mut image, &mut ledger);
        let _ = aktinoph::take_back(&mut image, &mut ledger);
    });
    (fit, list)
}

/// A low half before high halves whose offsets fall, so that their list is
/// sorted.
fn falling(class: Class) -> (Vec<u8>, Vec<u8>, usize) {
    let words = [AUIPC, ADDI, AUIPC].map(u32::to_le_bytes);
    let relocations = [
        Relocation::new(4, PCREL_LO12_I, 1, 0),
        Relocation::new(8, PCREL_HI20, 1, 0),
        Relocation::new(0, PCREL_HI20, 1, 0),
    ];
    let sections = [
        Section::default(),
        Section::loaded(4, &words.concat()),
        Section::symbols(&[Symbol::default(), Symbol::new(0, 1, 0)]),
        Section::relocations(1, 2, &relocations),
    ];
    let order = order(class, BASE, &[(1, BASE)], &[]);
    (object(class, &sections), order, 64)
}

/// A low half before as many high halves as an object may have, in an order that is hard
/// to sort, and with as many symbols as it may have: every scratch array is of the
/// longest kind, and the sort goes as deep as it does.
fn hard_to_sort(class: Class, order_of: fn(u64) -> u64) -> (Vec<u8>, Vec<u8>, usize) {
    let mut words = vec![AUIPC.to_le_bytes(); HIGHS as usize + 1];
    words[0] = ADDI.to_le_bytes();
    let mut relocations = vec![Relocation::new(0, PCREL_LO12_I, 1, 0)];
    relocations.extend((0..HIGHS).map(|k| Relocation::new(4 + 4 * order_of(k), PCREL_HI20, 1, 0)));
    let mut symbols = vec![Symbol::new(0, 1, 4); 8192];
    symbols[0] = Symbol::default();
    let sections = [
        Section::default(),
        Section::loaded(4, &words.concat()),
        Section::symbols(&symbols),
        Section::relocations(1, 2, &relocations),
    ];
    let order = order(class, BASE, &[(1, BASE)], &[]);
    (object(class, &sections), order, words.len() * 4)
}

/// As many high halves as there can be beside one low half.
const HIGHS: u64 = 32_767;

/// Falling; up and down again; in steps; and scattered.
const ORDERS: [fn(u64) -> u64; 5] = [
    |k| HIGHS - 1 - k,
    |k| if k % 2 == 0 { k / 2 } else { HIGHS - 1 - k / 2 },
    |k| k / 2 + (k % 2) * (HIGHS / 2 + 1),
    |k| k * 181 % HIGHS,
    |k| k * 20_011 % HIGHS,
];

/// More compressed jumps than the short arrays take. Their table lies in the frame
/// of the function that looks them up.
fn jumps(class: Class) -> (Vec<u8>, Vec<u8>, usize) {
    let input = every_jump(class).input;
    (input.object, input.order, input.image.len())
}

#[test]
fn at_most_what_is_said() {
    let given = objects().into_iter();
    let given = given.map(|given| (given.object, given.order, given.image_length));
    let largest = limits()
        .into_iter()
        .filter(|limit| limit.name.starts_with("the largest"));
    let largest = largest.map(|Limit { input, .. }| (input.object, input.order, input.image.len()));
    let (mut fit, mut list) = (0, 0);
    let made = [falling, jumps].map(|make| Class::ALL.map(make));
    let hard = Class::ALL
        .into_iter()
        .flat_map(|class| ORDERS.map(|order| hard_to_sort(class, order)));
    let made = made.into_iter().flatten().chain(hard);
    for (object, order, length) in given.chain(made).chain(largest) {
        let (one, other) = of_both(&object, &order, length);
        (fit, list) = (fit.max(one), list.max(other));
    }
    println!("a fit or a taking-back needs {fit} bytes of stack, a list {list}");
    assert!(fit <= STACK && list <= STACK, "{fit} and {list}");
    assert!(fit > STACK / 2, "{fit}: far less than said");
}
