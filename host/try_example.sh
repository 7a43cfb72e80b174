#!/bin/sh
# Runs the example host on the four-state machine of X, on a damaged copy and on nothing, on two records, the second a blank too, and on
# scripts, and holds it to what it must print.
set -eu
example=$1
record='NXA\001\000\004\002\001\000\000\000\003\000\000\000\002\000\000\000\004\000\000\000\001\000\000\000\010\000\000\000\001\000\000\000\001\000\000\000\010\000\000\000\010\000\000\000'
x='NXA\001\000\002\002\001\000\000\000\003\000\000\000\002\000\000\000\003\000\000\000\001\000\000\000\001\000\000\000'
all='NXA\001\000\001\002\001\000\000\000\001\000\000\000\001\000\000\000\001\000\000\000'

# expect STATUS TEXT GOT: the status and the whole text, which may be none.
expect() {
    if [ "$3" != "${2:+$2
}status $1" ]; then
        printf 'example: expected status %s and\n%s\nbut got\n%s\n' "$1" "$2" "$3"
        exit 1
    fi
}

# said BYTES ARGUMENTS..: what the example says with these bytes on standard input, and its status.
said() {
    bytes=$1
    shift
    printf "$bytes" | { "$example" "$@" && echo "status 0" || echo "status $?"; }
}

other=$(mktemp)
trap 'rm -f "$other"' EXIT

expect 0 'check: well formed, 47 bytes
minimal: dimension 2, 31 bytes
  2 states, 2 letters
  I 00000001  F 00000003
  letter 0: 00000002 00000003
  letter 1: 00000001 00000001
complement: dimension 3, 39 bytes
mirror: dimension 2, 31 bytes
test: - is accepted
test: 000 is accepted
test: 001 is not accepted
test: 0002 is not accepted
test: x is not accepted' "$(said "$record" - 000 001 0002 x)"
expect 1 'check: refused (6): the record'"'"'s length does not fit its states and letters; bytes needed 47' "$(said "$record\\000" -)"
expect 1 'check: refused (1): the record is too short to have a head: its bytes number 0' "$(said '')"
printf "$x" >"$other"
expect 0 'compare: the same words' "$(said "$record" -c - "$other")"
expect 0 'compare: they differ at 00, accepted by the first' "$(said "$all" -c - "$other")"
expect 1 'compare: refused (6): the record'"'"'s length does not fit its states and letters; bytes needed 31' "$(said "$x\\000" -c - "$other")"
expect 0 '0 key dim 2
1 same dim 2
2 differ dim 1 word 00 accepted-by answer' "$(said "$x$record$all" -m -)"
expect 0 '' "$(said '' -m -)"
expect 0 '0 refused 1 3' "$(said NXA -m -)"
: >"$other"
expect 0 'compare: they differ at -, accepted by the first' "$(said "$x" -c - "$other")"
expect 1 'compare: refused (1): the record is too short to have a head: its bytes number 0' "$(said '' -c - "$other")"
echo "example: 11 runs as expected"
