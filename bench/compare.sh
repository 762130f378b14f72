#!/bin/sh
# compare.sh [INPUTS [SEED]]: all comparisons of the proved kit with the implementation in Rust, and the speed. Run at the top of the repository, or in bench/.
# It proves and builds the program `depth` and the library of `depth_c` first, which takes minutes where they are not built yet.
set -eu
inputs=${1:-20000} seed=${2:-1}
cd "$(dirname "$0")"
mkdir -p target
crates=$(cd ../crates && pwd)
{ (cd "$crates/depth" && rt run <stdin >/dev/null) && (cd "$crates/depth_c" && rt lib); } >target/built.log 2>&1 || { tail target/built.log; exit 1; }
# The library is for the processors of x86-64-v2, so all is.
RUSTFLAGS="-L native=$crates/depth_c/out -C target-cpu=x86-64-v2" cargo build --release --features kit
depth="$crates/depth/out/depth"
built=target/release

echo "== the program depth and the model"
"$built/compare" "$inputs" "$seed" "$depth"
echo "== the exported call and the model"
"$built/compare" "$((5 * inputs))" "$((seed + 1))" --kit
echo "== the model, the walks and the flat marches"
"$built/walkcheck" "$inputs" "$seed"
echo "== speed"
"$built/speed"
echo "== peak memory of depth, in KiB, on the largest picture"
"$built/picture" largest >target/largest
/usr/bin/time -f %M "$depth" <target/largest >target/image
"$built/plain" <target/largest | cmp - target/image
