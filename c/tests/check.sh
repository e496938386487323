#!/bin/sh
# Runs the C tests and the examples that `make check` built, and compares what they print.
#
#   c/tests/check.sh FOLDER COMMAND..    the programs are in FOLDER; COMMAND, if given, runs each of them
#
# The result of each call: checks, datagrams, lending, session, history, forward, waiting, congestion, paths, reports, fec, rtcp, values, packets,
# bindings. Packets that Chromium sent are rebuilt from its FEC: fec chromium. The
# examples: first, in memory, and over UDP on loopback a stream, loopback, and a port with two senders, port. The stored script of
# the program payload_vectors: vectors. Headers of frames, compared with other readers, and hostile frames: frames, frames.txt.
# Allocations less frees after each type of use, and each allocation of a session refused in turn: oom, and of a forwarder:
# forward_oom. Each call that takes memory on inputs of each size, with all memory: beyond. Session descriptions in c/tests/sdp:
# descriptions. Each is read as NAME.txt says, which was written by hand after the RFCs; the faults are in faults.txt, and what
# gives no settings of a session is in clashes.txt; and changed copies are read within bounds. The status is 0 if all passed.
set -eu
folder=$1
shift
root=$(cd "$(dirname "$0")/../.." && pwd)
vectors=$root/crates/payload_vectors
work=$(mktemp -d)
trap 'rm -rf "$work"' EXIT

fail() {
    echo "$1" >&2
    exit 1
}

# says NAME PLACE LINE: that line of what the program printed is so
says() {
    [ "$(sed -n "$2p" "$work/$1")" = "$3" ] || fail "$1.c printed something else: $(sed -n "$2p" "$work/$1")"
}

# unix FILE: ends each line as on Unix, for programs of Windows
unix() {
    tr -d '\r' <"$1" >"$1.unix"
    mv "$1.unix" "$1"
}

# Programs of Windows end in .exe. There the two examples with sockets of Unix are not built, and a program over the DLL is.
names="first checks datagrams lending session history forward waiting congestion paths reports fec rtcp packets values bindings"
exe=
if [ -e "$folder/first.exe" ]; then
    exe=.exe
    names="$names shared oom forward_oom beyond"
    [ ! -e "$folder/wide.exe" ] || names="$names wide"
else
    names="$names loopback port oom forward_oom beyond"
fi
for name in $names; do
    "$@" "$folder/$name$exe" >"$work/$name" || {
        cat "$work/$name" >&2
        fail "$name.c failed"
    }
    unix "$work/$name"
    echo "$name: $(tail -n 1 "$work/$name")"
done
says first 2 "packets 65536 to 65538: a frame of 3000 bytes"
[ -n "$exe" ] || {
    says loopback '$' "1278000 bytes of frames, 64 gaps"
    says port 2 "stream 2 of payload type 111: 100 units, 8000 bytes, until a BYE"
    says port '$' "401 datagrams, 1 of RTCP, 0 for no stream"
}
"$@" "$folder/fec$exe" chromium <"$root/rust/tests/fec_ports/chromium.bin" >"$work/chromium" || {
    cat "$work/chromium" >&2
    fail "fec.c failed for packets of Chromium"
}
"$@" "$folder/vectors$exe" <"$vectors/stdin" >"$work/vectors" || fail "vectors.c failed"
unix "$work/vectors"
cmp -s "$work/vectors" "$vectors/stdout" || fail "vectors.c answers other lines than the program payload_vectors"
cut -d' ' -f1,2 "$root/c/tests/frames.txt" | "$@" "$folder/frames$exe" report | tr -d '\r' | cut -d' ' -f1-4 >"$work/reported"
cut -d' ' -f3- "$root/c/tests/frames.txt" | cmp -s - "$work/reported" || fail "frames.c and c/tests/frames.txt differ"
cut -d' ' -f1,2 "$root/c/tests/frames.txt" | "$@" "$folder/frames$exe" hostile >"$work/hostile" || fail "frames.c failed"
for given in "$root"/c/tests/sdp/*.sdp; do
    "$@" "$folder/descriptions$exe" <"$given" >"$work/read" || fail "descriptions.c failed for $given"
    unix "$work/read"
    cmp "$work/read" "${given%.sdp}.txt" || fail "descriptions.c reads something else of $given"
    "$@" "$folder/descriptions$exe" fuzz <"$given" >"$work/fuzzed" || fail "descriptions.c failed for a changed $given"
done
"$@" "$folder/descriptions$exe" faults <"$root/c/tests/sdp/faults.txt" >"$work/faults" || fail "descriptions.c failed for c/tests/sdp/faults.txt"
"$@" "$folder/descriptions$exe" clashes <"$root/c/tests/sdp/clashes.txt" >"$work/clashes" ||
    fail "descriptions.c failed for c/tests/sdp/clashes.txt"
echo "descriptions: $(cat "$work/faults"); of sessions $(cat "$work/clashes")"
echo "check: $(ls "$folder" | wc -l) programs, all passed"
