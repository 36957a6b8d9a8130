//! What the comparison with a peer makes of peers that agree and that do not.

use std::fs;
use std::os::unix::fs::PermissionsExt;
use std::process::{Command, Output};

/// The run on the buyer's book, whose base is 10,000, its tolerance 1 and its worst loss 30,000 in scenario 2.
fn beside(name: &str, printed: &str) -> Output {
    let peer = format!("{}/{name}", env!("CARGO_TARGET_TMPDIR"));
    let script =
        format!("#!/bin/sh\ncat > /dev/null\necho '{printed}'\necho 'seconds 0.001' >&2\n");
    fs::write(&peer, script).unwrap();
    fs::set_permissions(&peer, fs::Permissions::from_mode(0o755)).unwrap();
    let book = concat!(env!("CARGO_MANIFEST_DIR"), "/../../examples/buyer.book");
    Command::new(env!("CARGO_BIN_EXE_peer"))
        .args([&peer, "--rounds", "1", book])
        .output()
        .unwrap()
}

// one test, so that no other starts a program while a peer is being written
#[test]
fn a_peer_that_agrees_is_timed_and_one_that_differs_is_refused() {
    let output = beside("agrees", "curve 1 base 10000.40 loss 30001.20 scenario 2");
    assert!(output.status.success(), "{output:?}");
    let table = String::from_utf8(output.stdout).unwrap();
    assert!(
        table.contains("buyer") && table.contains("1.00 ms"),
        "{table}"
    );
    for (name, printed) in [
        ("base", "curve 1 base 10001.20 loss 30000.00 scenario 2"),
        ("loss", "curve 1 base 10000.00 loss 30002.20 scenario 2"),
        ("scenario", "curve 1 base 10000.00 loss 30000.00 scenario 1"),
        ("curves", ""),
    ] {
        let output = beside(name, printed);
        assert_eq!(output.status.code(), Some(1), "{name}: {output:?}");
        assert!(!output.stderr.is_empty());
    }
}
