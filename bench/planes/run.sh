#!/bin/sh
# Builds the proved table as a library and times its searches beside a version by hand.
set -e
cd "$(dirname "$0")/../.."
(cd crates/planes_runs_c && rt lib)
mkdir -p target/bench
cp crates/planes_runs_c/out/libplanes_runs_c.a target/bench/libplanes_runs.a
rustc -O --edition 2024 -L target/bench -l static=planes_runs -o target/bench/planes bench/planes/searches.rs
target/bench/planes
