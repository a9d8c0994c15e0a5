#!/bin/sh
# Builds and tests the bindings for Rust and Python, as bindings/test.sh says.
exec "$(dirname "$0")/../bindings/test.sh" "$@"
