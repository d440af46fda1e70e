//! Calls that are answered: the line, and the files after.

use std::fs;
use std::os::unix::fs::MetadataExt;

use crate::bench::{good, is_too_long, line, on_both, Bench};
use reference::install;
use testing::build::{journal, Class, Symbol, COMMON, GLOBAL, TLS};
use testing::damage::Input;
use testing::{numbers, Numbers, DONE};

#[test]
fn done_and_taken_back() {
    on_both(|program| {
        for fit in Class::ALL.map(|class| good().of(class)) {
            let bench = Bench::new(program, &fit);
            assert_eq!(line(&bench.fit()), "0 0 0\n");
            let (_, image, ledger) = fit.run();
            assert_eq!(bench.read("image"), image);
            assert_eq!(bench.read("ledger"), ledger);
            assert_eq!(bench.read("image")[64..68], [1, 2, 3, 4]);
            assert_eq!(bench.files().len(), 4, "no file is left over");
            assert_eq!(line(&bench.fit()), "15 0 0\n");
            assert_eq!(line(&bench.take_back()), "0 0 0\n");
            assert_eq!(bench.read("image"), fit.image);
            assert_eq!(bench.read("ledger"), fit.journal);
            assert_eq!(line(&bench.take_back()), "16 0 0\n");
            assert_eq!(bench.files().len(), 4, "no file is left over");
        }
    });
}

/// The class is the object's: an order for the other one is malformed.
#[test]
fn an_order_of_the_other_class() {
    on_both(|program| {
        for (class, other) in [(Class::Elf32, Class::Elf64), (Class::Elf64, Class::Elf32)] {
            let bench = Bench::new(program, &good().of(class));
            bench.write("order", &good().of(other).order());
            let before = bench.files();
            assert_eq!(line(&bench.fit()), "2 0 0\n", "{class:?}");
            assert_eq!(bench.files(), before);
        }
    });
}

#[test]
fn a_refusal_touches_no_file() {
    on_both(|program| {
        let mut fit = good();
        fit.placements.clear();
        let bench = Bench::new(program, &fit);
        let inode = |name: &str| fs::metadata(bench.path(name)).map(|file| file.ino());
        let inodes = || ["image", "ledger"].map(|name| inode(name).expect("the file is there"));
        let (before, inodes_before) = (bench.files(), inodes());
        assert_eq!(line(&bench.fit()), "6 1 0\n");
        assert_eq!(line(&bench.take_back()), "16 0 0\n");
        assert_eq!(bench.files(), before);
        assert_eq!(inodes(), inodes_before);
    });
}

/// "the program writes it third"
#[test]
fn reasons() {
    let against = |symbol: Symbol, kind| {
        let mut fit = good();
        fit.sections[1].bytes = vec![0x13, 0, 0, 0];
        fit.sections[2].symbols_mut()[1] = symbol;
        fit.sections[3].relocations_mut()[0].kind = kind;
        fit
    };
    let mut past = good();
    past.sections[3].relocations_mut()[0].symbol = 2;
    let fits = [
        past,
        against(Symbol::new(GLOBAL, 2, 0), 1),
        against(Symbol::new(GLOBAL, COMMON, 0), 1),
        against(Symbol::new(GLOBAL, 0xFF00, 0), 1),
        against(Symbol::new(GLOBAL, 0, 0), 1),
        against(Symbol::new(TLS, 1, 0), 1),
        against(Symbol::absolute(0), 24),
    ];
    on_both(|program| {
        for (reason, fit) in (1..).zip(&fits) {
            for class in Class::ALL {
                let bench = Bench::new(program, &fit.clone().of(class));
                let before = bench.files();
                assert_eq!(line(&bench.fit()), format!("10 0 {reason}\n"));
                assert_eq!(bench.files(), before);
            }
        }
    });
}

#[test]
fn too_long() {
    on_both(|program| {
        for name in ["object", "order", "image", "ledger"] {
            let bench = Bench::new(program, &good());
            bench.write(name, &vec![0; 65_537]);
            let before = bench.files();
            is_too_long(&bench.fit(), name);
            assert_eq!(bench.files(), before);
            bench.write(name, &vec![0; 65_536]);
            assert_ne!(line(&bench.fit()), "too long\n", "{name}");
        }
        for name in ["image", "ledger"] {
            let bench = Bench::new(program, &good());
            bench.write(name, &vec![0; 65_537]);
            let before = bench.files();
            is_too_long(&bench.take_back(), name);
            assert_eq!(bench.files(), before);
        }
        // Of several, the first is named.
        let bench = Bench::new(program, &good());
        for (name, first) in [("ledger", "ledger"), ("image", "image"), ("order", "order")] {
            bench.write(name, &vec![0; 65_537]);
            is_too_long(&bench.fit(), first);
        }
        is_too_long(&bench.take_back(), "image");
    });
}

/// Which file is longer, what the library answers, and the change.
type Longer = (&'static str, Numbers, fn(&mut Input));

/// A file of 65,537 bytes each in turn, and an order with as many values as there
/// may be: the program keeps its limit, and the library takes all but an order
/// with bytes left over.
#[test]
fn too_long_for_the_program_alone() {
    const LONGER: [Longer; 4] = [
        ("object", DONE, |input| input.object.resize(65_537, 0xEE)),
        ("order", (2, 0, 0), |input| input.order.resize(65_537, 0)),
        ("image", DONE, |input| input.image.resize(65_537, 0xA5)),
        ("ledger", DONE, |input| input.journal.resize(65_537, 0)),
    ];
    let mut inputs = Vec::new();
    for class in Class::ALL {
        for (name, answer, longer) in LONGER {
            let mut input = Input::from(&good().of(class));
            longer(&mut input);
            inputs.push((format!("{name}, {class:?}"), answer, input));
        }
        let mut fit = good().of(class);
        fit.sections[2]
            .symbols_mut()
            .resize(8_192, Symbol::default());
        fit.external_values = (2..8_192).map(|symbol| (symbol, 7)).collect();
        inputs.push((
            format!("object, {class:?}, of symbols with values"),
            DONE,
            Input::from(&fit),
        ));
    }
    for (name, answer, input) in &inputs {
        let (mut image, mut journal) = (input.image.clone(), input.journal.clone());
        let taken = install(&input.object, &input.order, &mut image, &mut journal);
        assert_eq!(numbers(taken), *answer, "{name}");
    }
    on_both(|program| {
        for (name, _, input) in &inputs {
            let bench = Bench::new(program, &good());
            bench.write("object", &input.object);
            bench.write("order", &input.order);
            bench.write("image", &input.image);
            bench.write("ledger", &input.journal);
            let before = bench.files();
            let (file, _) = name.split_once(',').expect("the longer file's name");
            is_too_long(&bench.fit(), file);
            assert_eq!(bench.files(), before, "{name}");
        }
    });
}

/// Files of the greatest length, and empty ones.
#[test]
fn lengths_at_the_limits() {
    on_both(|program| {
        let mut fit = good();
        fit.journal = journal(65_536 - 136);
        fit.image.resize(65_536, 0xA5);
        let bench = Bench::new(program, &fit);
        assert_eq!(line(&bench.fit()), "0 0 0\n");
        let (_, image, ledger) = fit.run();
        assert_eq!((bench.read("image"), bench.read("ledger")), (image, ledger));
        assert_eq!(line(&bench.take_back()), "0 0 0\n");
        assert_eq!(bench.read("image"), fit.image);
        bench.write("order", &[]);
        assert_eq!(line(&bench.fit()), "2 0 0\n");
        bench.write("object", &[]);
        assert_eq!(line(&bench.fit()), "4 0 0\n");
        bench.write("image", &[]);
        assert_eq!(line(&bench.take_back()), "16 0 0\n");
        bench.write("ledger", &[]);
        assert_eq!(line(&bench.fit()), "1 0 0\n");
        assert_eq!(line(&bench.take_back()), "1 0 0\n");
    });
}

#[test]
fn names_with_spaces() {
    on_both(|program| {
        let bench = Bench::new(program, &good());
        fs::create_dir(bench.path("a box")).expect("a directory");
        for name in ["object", "order", "image", "ledger"] {
            let spaced = bench.path(&format!("a box/the  {name}"));
            fs::rename(bench.path(name), spaced).expect("a rename");
        }
        let [image, ledger] = ["a box/the  image", "a box/the  ledger"];
        let fit = [
            "fit",
            "a box/the  object",
            "a box/the  order",
            image,
            ledger,
        ];
        assert_eq!(line(&bench.run(&fit)), "0 0 0\n");
        assert_eq!(bench.read(image)[64..68], [1, 2, 3, 4]);
        assert_eq!(line(&bench.run(&["take-back", image, ledger])), "0 0 0\n");
        assert_eq!(bench.read(image), good().image);
    });
}
