#!/bin/sh
# covered.sh FOLDER: the archive once more, for the fuzzer. The module that `rt lib` hands to its compiler is compiled a second time, with
# the coverage that guides libFuzzer and a check of every address, and put into FOLDER/libnxa.a. The archive itself comes out as ever.
#
# rt goes by the kit that it lies in, so it runs here in one made of links to the real one, but for rt itself and its clang. That stands outside
# the repository, where `rt ci` would refuse the links.
set -eu
mkdir -p "$1"
folder=$(cd "$1" && pwd -P)
cd "$(dirname "$0")/../../crates/nxa"
kit=$(dirname "$(rt doc)")
clang=$kit/toolchain/bin/clang
flags='-fsanitize=address -mllvm -force-attribute=sanitize_address -fsanitize-coverage=inline-8bit-counters,pc-table,trace-cmp'

# links FROM TO EXCEPT: a link in TO for each entry of FROM but one.
links() {
    mkdir -p "$2"
    for entry in "$1"/*; do
        [ "${entry##*/}" = "$3" ] || ln -s "$entry" "$2/"
    done
}

rm -f "$folder/nxa.o" "$folder/libnxa.a"
room=$(mktemp -d)
trap 'rm -rf "$room"' EXIT
links "$kit" "$room/kit" toolchain
rm "$room/kit/bin"
cp -R "$kit/bin" "$room/kit/bin"
links "$kit/toolchain" "$room/kit/toolchain" bin
links "$kit/toolchain/bin" "$room/kit/toolchain/bin" clang
cat >"$room/kit/toolchain/bin/clang" <<END
#!/bin/sh
"$clang" "\$@" && exec "$clang" "\$@" $flags -o "$folder/nxa.o"
END
chmod +x "$room/kit/toolchain/bin/clang"

"$room/kit/bin/rt" lib
ar rcs "$folder/libnxa.a" "$folder/nxa.o"
