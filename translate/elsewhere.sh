#!/bin/sh
# Runs dist/ under the sanitizers and on other processors, which qemu stands in for: the random calls of
# replay.c, whose line must be the library's (target/dist/replayed), the machine's cases, and the examples,
# which must write what they write over the library. What can't be built or run here is told, with the Debian
# packages that it wants.

out=target/dist/elsewhere
calls=$1
shift
examples=$*
mkdir -p $out
printf 'int main(void) { return 0; }\n' >$out/empty.c

# way NAME PACKAGES RUNNER COMPILER WORDS..: one way to build and run all of it.
way() {
    name=$1 packages=$2 runner=$3
    shift 3
    if ! { "$@" $out/empty.c -o $out/empty && $runner $out/empty; } >$out/log 2>&1; then
        echo "not run: $name (Debian packages $packages)"
        return
    fi
    "$@" -std=c99 -Iinclude translate/replay.c dist/*.c -o $out/replay || exit 1
    $runner $out/replay $calls | diff target/dist/replayed - || exit 1
    for cases in target/dist/cases_*.c; do
        "$@" -std=c99 -Iinclude -Idist -Itranslate/zoo $cases -o $out/cases || exit 1
        $runner $out/cases >$out/cases.log || { cat $out/cases.log; exit 1; }
    done
    for example in $examples; do
        "$@" -std=c11 -Iinclude $(find examples/$example* -name '*.c') dist/*.c -o $out/$example || exit 1
        $runner $out/$example | cmp target/dist/$example.library || exit 1
    done
    echo "ok     $name"
}

way "gcc -O0" gcc "" gcc -O0
way "gcc -O2, undefined and address sanitizers" gcc "" gcc -O2 -g -fsanitize=undefined,address -fno-sanitize-recover=all
way "gcc -m32" gcc-12-multilib "" gcc -m32 -O2
way "clang -O2" clang "" clang -O2
way "clang -O2, undefined, integer and address sanitizers" "clang libclang-rt-14-dev" "" \
    clang -O2 -g -fsanitize=undefined,integer,address -fno-sanitize-recover=all -fsanitize-ignorelist=translate/ignored
way "clang -O2, memory sanitizer" "clang libclang-rt-14-dev" "" clang -O2 -g -fsanitize=memory
way "32-bit ARM" "gcc-arm-linux-gnueabihf qemu-user" qemu-arm arm-linux-gnueabihf-gcc -O2 -static
way "32-bit PowerPC, big-endian" "gcc-powerpc-linux-gnu qemu-user" qemu-ppc powerpc-linux-gnu-gcc -O2 -static
