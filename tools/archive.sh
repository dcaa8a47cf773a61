#!/usr/bin/env bash
# tools/archive.sh: proves the library and writes it for programs in C and Rust to target/staticlib/libkebrawish.a. The code is for every
# x86-64 processor. (`rt lib` leaves the archive in crates/kebrawish/out, where `rt ci` clears it away.)
set -euo pipefail
cd "$(dirname "${BASH_SOURCE[0]}")/.."

(cd crates/kebrawish && rt lib --cpu x86-64)
mkdir -p target/staticlib
cp crates/kebrawish/out/libkebrawish.a target/staticlib/
