//! Links, and the modes of files that are replaced.

use std::fs;
use std::os::unix::fs::{symlink, PermissionsExt};

use crate::bench::{good, line, on_both, Bench};

/// Through a link, the file behind it is replaced.
#[test]
fn links_stay() {
    on_both(|program| {
        let bench = Bench::new(program, &good());
        fs::create_dir(bench.path("far")).expect("a directory");
        fs::rename(bench.path("image"), bench.path("far/behind")).expect("a rename");
        symlink("behind", bench.path("far/link")).expect("a link");
        symlink("far/link", bench.path("image")).expect("a link");
        assert_eq!(line(&bench.fit()), "0 0 0\n");
        assert_eq!(bench.read("far/behind")[64..68], [1, 2, 3, 4]);
        for name in ["image", "far/link"] {
            let link = fs::symlink_metadata(bench.path(name)).expect("the link is there");
            assert!(link.is_symlink());
        }
        assert_eq!(line(&bench.take_back()), "0 0 0\n");
        assert_eq!(bench.read("far/behind"), good().image);
    });
}

/// The other name of a file keeps the old bytes.
#[test]
fn second_names() {
    on_both(|program| {
        let bench = Bench::new(program, &good());
        fs::hard_link(bench.path("image"), bench.path("other")).expect("a second name");
        assert_eq!(line(&bench.fit()), "0 0 0\n");
        assert_eq!(bench.read("image")[64..68], [1, 2, 3, 4]);
        assert_eq!(bench.read("other"), good().image);
    });
}

/// A file that is replaced keeps its mode, at a fit and at a taking-back.
#[test]
fn modes() {
    on_both(|program| {
        let bench = Bench::new(program, &good());
        let mode = |name: &str| {
            let file = fs::metadata(bench.path(name)).expect("the file is there");
            file.permissions().mode() & 0o7777
        };
        for (image, ledger) in [(0o640, 0o600), (0o644, 0o666), (0o1775, 0o707)] {
            for (name, bits) in [("image", image), ("ledger", ledger)] {
                let kept = fs::Permissions::from_mode(bits);
                fs::set_permissions(bench.path(name), kept).expect("permissions");
            }
            for call in [Bench::fit, Bench::take_back] {
                assert_eq!(line(&call(&bench)), "0 0 0\n");
                assert_eq!((mode("image"), mode("ledger")), (image, ledger));
            }
        }
    });
}
