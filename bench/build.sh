# shellcheck shell=bash
# shellcheck disable=SC2154 # what is not set here is bench/run's
# Sourced by bench/run: compiles what is timed, and links it with the timed code at several places. `compiler` is the system's, `clang` the
# kit's, which compiled the proved code too; `made` is the folder for what is made.

# A processor minds where in a line of its cache a loop begins: so eight places over a page, at four places of a line. Every function
# moves by 16 bytes or a multiple of it.
places="0 528 1056 1584 2112 2640 3168 3696"
# -O3 as the proved code is compiled; no -march, as that is for any processor of its kind.
flags=(-std=c11 -Wall -Wextra -Werror -O3)

# headers: where the system's compiler finds its headers, as words for the kit's clang, which has none of its own.
headers() {
    echo -nostdinc
    LC_ALL=C "$compiler" -E -v -x c /dev/null 2>&1 >/dev/null | sed -n '/^#include <\.\.\.>/,/^End of search/s/^ /-isystem /p'
}

# by_both NAME: bench/NAME.c by the kit's clang, its functions under names of their own, and by the system's compiler.
by_both() {
    # shellcheck disable=SC2046 # the headers are words
    "$clang" --target=x86_64-unknown-linux-gnu "${flags[@]}" $(headers) -Dtwin_feed=kit_twin_feed -Dtwin_measure=kit_twin_measure \
        -Dwalker_capture=kit_walker_capture -c -o "$made/timed/kit-$1.o" "bench/$1.c"
    "$compiler" "${flags[@]}" -c -o "$made/timed/$1.o" "bench/$1.c"
}

# placed NAME OBJECT..: the program NAME-PLACE for each place.
placed() {
    local name=$1 place
    shift
    for place in $places; do
        "$compiler" -Wl,-T,bench/timed.ld -Wl,--defsym=PLACE=$((0x4000000 + place)) -o "$made/$name-$place" "$@" \
            2>"$made/link.log" || { cat "$made/link.log" >&2; return 1; }
    done
}

# find_libpcap: sets `with_libpcap` and `link_libpcap`, words for the compiler, which are empty where libpcap cannot be had.
with_libpcap=() link_libpcap=()
find_libpcap() {
    [ -e /usr/include/pcap/pcap.h ] || fetch libpcap-dev
    [ ! -e /usr/include/pcap/pcap.h ] || { with_libpcap=(-DLIBPCAP) && link_libpcap=(-lpcap); }
}

# build: the twins and the programs in C, and bench itself with the proved functions, which the caller has put in $made/timed.
build() {
    local name
    for name in twin walker plain walk; do by_both "$name"; done
    "$compiler" "${flags[@]}" -c -o "$made/timed/count.o" bench/count.c
    "$compiler" "${flags[@]}" -c -o "$made/bench.o" bench/bench.c
    "$compiler" "${flags[@]}" "${with_libpcap[@]}" -c -o "$made/libpcap.o" bench/libpcap.c
    placed bench "$made"/{bench,libpcap}.o "$made"/timed/{twin,kit-twin,walker,kit-walker}.o "$made"/timed/{probe,report,film}.o \
        "${link_libpcap[@]}"
    for name in plain kit-plain walk kit-walk count; do placed "$name" "$made/timed/$name.o"; done
}
