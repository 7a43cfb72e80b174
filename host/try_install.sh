#!/bin/sh
# Compiles the example against an installed copy, by the flags that its nxa.pc names: once with the archive, once with the shared
# object. Each must be linked the way it says, and print what it must.
set -eu
prefix=$1
here=$(dirname "$0")
pc=$prefix/lib/pkgconfig/nxa.pc
pkg_config=${PKG_CONFIG:-pkg-config}

# told FIELD OPTION: a field of nxa.pc by pkg-config, or where there is none by reading it: its variables are lines that a shell reads.
told() {
    if command -v "$pkg_config" >/dev/null; then
        PKG_CONFIG_PATH=$prefix/lib/pkgconfig "$pkg_config" "$2" nxa
    else
        (eval "$(sed -n '/^[a-z]*=/p' "$pc")" && eval "echo $(sed -n "s/^$1: //p" "$pc")")
    fi
}

# build PROGRAM FLAGS..: with nothing of this folder but the source, as a host elsewhere is built.
build() {
    program=$1
    shift
    # The flags of nxa.pc are many words.
    # shellcheck disable=SC2046
    ${CC:-cc} -std=c89 -Wall -Wextra -pedantic -Werror $(told Cflags --cflags) "$prefix/src/example.c" "$@" -o "$program"
}

# needs PROGRAM: whether it asks for the shared object when it is started.
needs() {
    LC_ALL=C readelf -d "$1" | grep -q 'NEEDED.*libnxa'
}

fail() {
    echo "install: $1"
    exit 1
}

mkdir -p "$prefix/src"
cp "$here/example.c" "$prefix/src"
libs=$(told Libs --libs)
# shellcheck disable=SC2086
build "$prefix/example_static" -Wl,-Bstatic $libs -Wl,-Bdynamic
# shellcheck disable=SC2086
build "$prefix/example_shared" $libs -Wl,-rpath,"$prefix/lib"
needs "$prefix/example_static" && fail 'the example with the archive asks for the shared object'
needs "$prefix/example_shared" || fail 'the example with the shared object does not ask for it'
sh "$here/try_example.sh" "$prefix/example_static"
sh "$here/try_example.sh" "$prefix/example_shared"
echo "install: the example runs with the archive and with the shared object ($(command -v "$pkg_config" || echo 'nxa.pc read by hand'))"
