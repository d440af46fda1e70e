//! `--values-from`: the address of a symbol of one fitted module as the value of
//! the next.

use std::fs;
use std::path::Path;

use crate::files::{order_of, refused_with, text_with};
use crate::{text_of, Scratch};
use reference::order::Order;
use reference::Class;

/// The symbol that the other module wants, as `third` is called here: 0x10 bytes
/// into a section at 0x3000.
const DEFINED: &str = "24: 00000010    48 FUNC    GLOBAL DEFAULT    8 outer";
const THIRD: &str = "24: 00000000    48 FUNC    GLOBAL DEFAULT    8 third";

struct Module {
    object: Scratch,
    order: Scratch,
}

impl Module {
    /// The object of `gcc-sections` with another line for `third`, whose section
    /// is at this address.
    fn new(name: &str, line: &str, address: &str) -> Module {
        let object = text_with("gcc-sections", name, THIRD, line);
        let order = Scratch::new(&format!("{name}-order"));
        let place = format!(".text.third={address}");
        let arguments = [
            "--window", "0", "--from", "0", "--place", &place, "--leave", "@23",
        ];
        let done = order_of(&object.0, &order.0, &arguments);
        assert!(done.status.success(), "{done:?}");
        Module { object, order }
    }

    fn arguments(&self) -> [&str; 3] {
        let [object, order] =
            [&self.object, &self.order].map(|file| file.0.to_str().expect("plain text"));
        ["--values-from", object, order]
    }
}

const WINDOW: [&str; 4] = ["--window", "0x8000", "--from", "0x8000"];

/// The values of the order that is made for a text with these arguments.
fn values(text: &Path, class: Class, arguments: &[&str]) -> Vec<(u32, u64)> {
    let out = Scratch::new("next");
    let done = order_of(text, &out.0, arguments);
    assert!(done.status.success(), "{done:?}");
    let bytes = fs::read(&out.0).expect("the order");
    let order = Order::read(&bytes, class).expect("an order");
    let values = order.external_values.iter();
    values.map(|value| (value.symbol, value.value)).collect()
}

#[test]
fn addresses_of_other_modules() {
    let module = Module::new("first", DEFINED, "0x3000");
    let next = [&WINDOW[..], &module.arguments()].concat();
    let text = text_of("gcc-sections");
    assert_eq!(values(&text, Class::Elf32, &next), [(23, 0x3010)]);
    // of the other class, and an absolute symbol
    assert_eq!(
        values(&text_of("rv64-gcc-sections"), Class::Elf64, &next)[0].1,
        0x3010
    );
    let absolute = Module::new(
        "absolute",
        &DEFINED.replace("   8 outer", " ABS outer"),
        "0x3000",
    );
    let next = [&WINDOW[..], &absolute.arguments()].concat();
    assert_eq!(values(&text, Class::Elf32, &next), [(23, 0x10)]);
}

/// A value that is given wins; of two modules that define a symbol, neither does.
#[test]
fn values_that_are_given() {
    let [one, two] = ["one", "two"].map(|name| Module::new(name, DEFINED, "0x3000"));
    let text = text_of("gcc-sections");
    let both = [&WINDOW[..], &one.arguments(), &two.arguments()].concat();
    let out = Scratch::new("both");
    refused_with(&order_of(&text, &out.0, &both), "outer: defined by ");
    let told = [&both[..], &["--value", "outer=7"]].concat();
    assert_eq!(values(&text, Class::Elf32, &told), [(23, 7)]);
    let left = [&both[..], &["--leave", "outer"]].concat();
    assert_eq!(values(&text, Class::Elf32, &left), []);
}

/// What another module cannot be asked for: symbols of its own, and those
/// without an address.
#[test]
fn symbols_that_no_other_module_names() {
    let text = text_of("gcc-sections");
    for (name, from, to) in [
        ("local", "GLOBAL", "LOCAL "),
        ("common", "   8 outer", " COM outer"),
        ("thread", "FUNC", "TLS "),
        ("unplaced", "   8 outer", "  16 outer"),
        ("other", "outer", "inner"),
    ] {
        let module = Module::new(name, &DEFINED.replace(from, to), "0x3000");
        let next = [&WINDOW[..], &module.arguments()].concat();
        let out = Scratch::new("without");
        refused_with(
            &order_of(&text, &out.0, &next),
            "no value for the undefined\n  outer (@23)",
        );
    }
    let module = Module::new("high", DEFINED, "0xfffffff0");
    let next = [&WINDOW[..], &module.arguments()].concat();
    let out = Scratch::new("high-next");
    refused_with(&order_of(&text, &out.0, &next), "or the address 0xffffffff");
}

/// The order has to be the module's own.
#[test]
fn orders_of_other_modules() {
    let module = Module::new("mixed", DEFINED, "0x3000");
    let text = text_of("clang-hidden");
    let mut arguments = module.arguments();
    arguments[1] = text.to_str().expect("plain text");
    let out = Scratch::new("mixed-next");
    let next = [&WINDOW[..], &arguments].concat();
    refused_with(
        &order_of(&text_of("gcc-sections"), &out.0, &next),
        "not an order for ",
    );
}
