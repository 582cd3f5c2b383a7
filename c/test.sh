#!/bin/sh
# Builds the library and the example, runs it, also under valgrind, and compares what it prints with example.out.
set -eu
cd "$(dirname "$0")/.."
out=target/c
(cd crates/hello_c && rt lib)
mkdir -p "$out"
cp crates/hello_c/out/libhello_c.a "$out/libhello.a"
gcc -std=c11 -O2 -g -Wall -Wextra -Werror -o "$out/example" c/example.c "$out/libhello.a"
"$out/example" "$out/frame.bin" > "$out/example.out"
diff c/example.out "$out/example.out"
if command -v valgrind > /dev/null; then
    valgrind --quiet --error-exitcode=1 --leak-check=full "$out/example" > "$out/example.out"
    diff c/example.out "$out/example.out"
else
    echo "c/test.sh: valgrind is missing: not run under it"
fi
sh c/tshark.sh "$out/frame.bin"
echo "c/test.sh: ok"
