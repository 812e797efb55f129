#!/bin/sh
# Builds runs of the proved tables as a library and times them beside loops by hand.
set -e
cd "$(dirname "$0")/../.."
(cd crates/bench_device_c && rt lib)
mkdir -p target/bench
cp crates/bench_device_c/out/libbench_device_c.a target/bench/libbench_device.a
rustc -C opt-level=3 --edition 2024 -L target/bench -l static=bench_device -o target/bench/device bench/device/runs.rs
target/bench/device
