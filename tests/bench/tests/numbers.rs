//! The number reader before, beside which `make bench-numbers` times today's, can still be put back.

use std::path::Path;
use std::process::Command;

#[test]
fn the_number_reader_before_is_put_back() {
    let libraries = Path::new(env!("CARGO_MANIFEST_DIR")).join("../numbers/libraries");
    let put_back = Command::new(libraries).arg("check").output().expect("the script runs");
    assert!(put_back.status.success(), "{}", String::from_utf8_lossy(&put_back.stderr));
}
