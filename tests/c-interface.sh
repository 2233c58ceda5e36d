#!/usr/bin/env bash
# The C interface: writes the static library, compiles the example and the test as C99 and as C++, and runs them.
set -e
cd "$(dirname "$0")/.."
out=$(mktemp -d)
trap 'rm -rf "$out"' EXIT
(cd crates/vayudrit && rt lib) >"$out/said" 2>&1 || {
    cat "$out/said" >&2
    exit 1
}
lib=crates/vayudrit/out/libvayudrit.a

# What it asks of the program that links it: memcpy and memset, as the header says, and nothing else.
if nm -u "$lib" | awk 'NF == 2 { print $2 }' | grep -v -x -e memcpy -e memset; then
    echo "undefined symbols that the header excludes" >&2
    exit 1
fi

# What it gives: the functions that the header declares, all of them and nothing else.
sed -n 's/^uint64_t \(vayudrit_[a-z_]*\)(.*/\1/p' include/vayudrit.h | sort >"$out/declared"
nm -g --defined-only "$lib" | awk 'NF == 3 { print $3 }' | sort | diff "$out/declared" -

warn="-O2 -Wall -Wextra -Werror -pedantic -Iinclude"
gcc -std=c99 $warn examples/first.c "$lib" -o "$out/first"
g++ -x c++ -std=c++11 $warn examples/first.c -x none "$lib" -o "$out/first++"
gcc -std=c99 $warn examples/trial.c "$lib" -o "$out/trial"
g++ -x c++ -std=c++11 $warn examples/trial.c -x none "$lib" -o "$out/trial++"
for example in first trial; do
    for program in "$example" "$example++"; do
        "$out/$program" | diff - "examples/$example.out"
    done
done

gcc -std=c99 $warn examples/graph.c "$lib" -o "$out/graph"
g++ -x c++ -std=c++11 $warn examples/graph.c -x none "$lib" -o "$out/graph++"
for program in graph graph++; do
    "$out/$program" <examples/sites.col | diff - examples/graph.out
done

gcc -std=c99 $warn examples/tidy.c "$lib" -o "$out/tidy"
g++ -x c++ -std=c++11 $warn examples/tidy.c -x none "$lib" -o "$out/tidy++"
for program in tidy tidy++; do
    "$out/$program" <examples/sites.col | diff - examples/tidy.out
done

gcc -std=c99 $warn tests/interface.c "$lib" -o "$out/interface"
gcc -std=c99 -g -fsanitize=address,undefined -Iinclude tests/interface.c "$lib" -o "$out/interface-checked"
gcc -std=c99 -static $warn tests/interface.c "$lib" -o "$out/interface-static"
for program in interface interface-checked interface-static; do
    "$out/$program"
done
# Graph texts, valid and damaged, against the second program's reader.
mkdir "$out/texts"
gcc -std=c99 -O2 -Wall -Wextra -Werror tests/reference/graph_texts.c tests/reference/reference.c -o "$out/graph_texts"
gcc -std=c99 -g -fsanitize=address,undefined -fno-sanitize-recover=all -Wall -Wextra -Werror -Iinclude tests/reference/graph_compare.c tests/reference/reference.c "$lib" -o "$out/graph_compare"
"$out/graph_texts" "${SEED:-1}" 1200 "$out/texts"
"$out/graph_compare" "$out"/texts/*
# The same texts and those of larger graphs tidied, against the second program.
mkdir "$out/larger"
"$out/graph_texts" "${SEED:-1}" 900 "$out/larger" 20
gcc -std=c99 -g -fsanitize=address,undefined -fno-sanitize-recover=all -Wall -Wextra -Werror -Iinclude tests/reference/tidy_compare.c tests/reference/tidy.c tests/reference/reference.c "$lib" -o "$out/tidy_compare"
"$out/tidy_compare" "$out"/texts/* "$out"/larger/*
echo "the C interface: all as expected"
