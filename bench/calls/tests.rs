//! A test that makes each call. `bench/unproved.py` compiles what this test reaches.

use crate::{bench_check, bench_check_and_walk, bench_read};

/// `IFLA_DSA_CONDUIT` 42.
const CONDUIT: [u8; 8] = [8, 0, 1, 0, 42, 0, 0, 0];

#[test]
fn calls(rt: HostRuntime) {
    assert!(rt; bench_read(rt.alloc(), 7, &CONDUIT) == 1);
    assert!(rt; bench_check(7, &CONDUIT) == 1);
    assert!(rt; bench_check_and_walk(7, &CONDUIT) == 42);
    assert!(rt; bench_check_and_walk(10, &CONDUIT) == -5);
}
