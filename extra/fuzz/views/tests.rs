//! A test that makes the call. `bench/unproved.py` compiles what this test reaches.

use crate::fuzz_views;

#[test]
fn calls(rt: HostRuntime) {
    // IFLA_DSA_CONDUIT 42
    assert!(rt; fuzz_views(rt.alloc(), 7, &[8, 0, 1, 0, 42, 0, 0, 0]) == 0);
    assert!(rt; fuzz_views(rt.alloc(), 99, &[]) == -5);
}
