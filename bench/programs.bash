# What bench/run and bench/instructions build, in the folder built/: the programs that are compared,
# and the comparer. They stand in bench/, which is the current folder.

mkdir -p built
rustc --edition 2024 -O -o built/compare compare.rs
../twin/build fast
cp ../twin/target/fast/twin built/plain
cp ../twin/target/fast/parts built/plain_parts
cp ../twin/target/fast/libtwin.a built/libplain_port.a
