# shellcheck shell=bash
# shellcheck disable=SC2154 # `name`, `here`, `installed`, `reads` and `thing` are the command's
# Sourced by the commands vtiming and vcapture, which have in common all but their options and their words. It runs the proved program of
# the command's name on this machine, passes its lines on as they come, and turns the last one into an exit status. In the
# repository it first builds the program where it is missing or older than its sources; installed by a package it finds it in
# ../lib/vtiming. The command sets `name`; `here`, its own folder; `installed`, that of the program, or nothing in the repository;
# `thing`, what it reads one of; `reads`, what --version says of that. It has these functions, and then calls `main` with its words:
#   usage           what --help prints
#   options WORD..  sets the arrays `operands`, the files that are named, and `numbers`, the program's words
#   advice NUMBER PLACE  prints what to do about a refusal, or nothing
# A command that fails ends `work` with a status of its own, often 1. So what is said of a file has numbers that none of them
# gives, and whatever else `work` ends in, foreseen or not, is 2.
measured=100 refused=101

fail() {
    echo "$name: $*" >&2
    exit 2
}
unwritten() { fail "the output could not be written, and it was stopped there: look whether the disk is full or the reader gone"; }

# A closed stream would lend its number to the next file that is opened: a pipe of ours would then be read as the input.
closed=""
true 3>&2 || exec 2>/dev/null
true 2>/dev/null 3<&0 || { closed=yes && exec </dev/null; }
true 2>/dev/null 3>&1 || fail "standard output is closed, and there is nowhere to print: let it go to a screen, a file or a pipe"

# needs PACKAGE COMMAND..: the commands are there.
needs() {
    local package=$1 command
    shift
    for command; do
        command -v "$command" >/dev/null || fail "\`$command\` is not on the path: install $package, or mend PATH"
    done
}

# --help and --version.
show_usage() {
    usage 2>/dev/null || unwritten
    exit "$measured"
}
show_version() {
    local version
    version=$(cat "${installed:-$here}/VERSION")
    echo "$name $version, for $reads" 2>/dev/null || unwritten
    exit "$measured"
}
no_option() { fail "there is no option $1; try: $name --help"; }

# input [FILE]: standard input is the file.
input() {
    [ $# -le 1 ] || fail "one file at a time; try: $name --help"
    local file=${1--}
    if [ "$file" != - ]; then
        [ -e "$file" ] || fail "there is no file $file: check the name and the folder"
        [ ! -d "$file" ] || fail "$file is a folder: name a $thing in it"
        [ -r "$file" ] || fail "$file cannot be read: check who may read it (ls -l)"
        exec <"$file" || fail "$file cannot be opened: check what it is (ls -l)"
    elif [ -n "$closed" ]; then
        fail "no file was named, and standard input is closed: $name FILE"
    elif [ -t 0 ]; then
        fail "no file was named: $name FILE, or send one to standard input; try: $name --help"
    fi
}

# newest: no source is newer than the last build (what `rt` writes, in crates/NAME/out/, is none). Where that cannot be known it is built
# again.
newest() {
    local newer
    newer=$(find "$here/crates.txt" "$here"/crates/*/src "$here"/crates/*/specs "$here"/crates/*/proofs -newer "$1" -print -quit) &&
        [ -z "$newer" ]
}

# build: the program, proved, where it is missing or older than its sources.
build() {
    local target=$here/target began
    local built=$target/$name-built log=$target/$name-build.log
    if [ -x "$program" ] && [ -e "$built" ] && newest "$built"; then return; fi
    command -v rt >/dev/null || fail "the program is not built, and \`rt\`, the Rattle kit's command, is not on the path:" \
        "install the kit that README.md names and put its bin/ on PATH"
    { mkdir -p "$target" && true >"$log" && began=$(mktemp "$target/$name-began.XXXXXX"); } ||
        fail "the program must be built first, and $target cannot be written: run this once as somebody who may write there," \
            "or make room on the disk, or copy the repository to a folder of your own"
    echo "$name: proving and building the program; this is done once and can take some minutes" >&2
    # `rt` proves it, links it and runs it once, with nothing to read.
    (cd "$here/crates/$name" && rt run --cpu x86-64) </dev/null >"$log" 2>&1 || {
        rm -f "$began"
        tail -n 5 "$log" >&2
        fail "the program could not be built; $log says why"
    }
    # As old as the start of the build: a source that changed meanwhile is newer.
    mv "$began" "$built"
}

# lines: the program's lines as they come; the last one is in `last`. `tee` hands every line on at once, and `tail` keeps the last
# one only, however long the output is. Where the lines cannot be written `tee` ends, and with it the program, which has nobody left
# to write to.
lines() {
    local status=0
    exec 3>&1
    last=$(
        set +e
        "${run_words[@]}" "${numbers[@]}" 3>&- | tee --output-error=exit >(exec tail -n 1 3>&-) >&3 2>/dev/null
        statuses=("${PIPESTATUS[@]}")
        [ "${statuses[1]}" -eq 0 ] || exit 1
        case ${statuses[0]} in
        0) exit 0 ;;
        126 | 127) exit 2 ;;
        # Hang-up, interrupt, quit, kill, terminate come from others; any other signal is the program's own doing.
        129 | 130 | 131 | 137 | 143) exit 3 ;;
        *) exit 4 ;;
        esac
    ) || status=$?
    case $status in
    0) ;;
    1) unwritten ;;
    2) fail "the program could not be started: it is for Linux on x86-64; elsewhere VTIMING_RUNNER names an emulator" ;;
    3) fail "the program was killed by somebody, or for want of memory, and there is no verdict: try again" ;;
    *) fail "the program itself failed; this is a fault of $name and not of the file: please report it with the file" ;;
    esac
}

# advise NUMBER PLACE: says it where there is something to say. The status is the file's, whether or not anybody hears it.
advise() {
    local words
    words=$(advice "$@")
    [ -z "$words" ] || echo "$name: $words" >&2 2>/dev/null || true
}

work() {
    local manual=docs/MANUAL.md last operands=() numbers=()
    needs coreutils cat dirname readlink tail tee
    # shellcheck disable=SC2034 # usage names it
    [ -z "$installed" ] || manual=$(readlink -m "$here/../share/doc/vtiming/MANUAL.md")
    options "$@"
    input "${operands[@]}"

    local run_words=() program=$here/crates/$name/out/$name
    if [ -n "$installed" ]; then
        # VTIMING_RUNNER: a command that runs it where the processor is not x86-64, as an emulator.
        set -f
        # shellcheck disable=SC2206 # it is words
        run_words=(${VTIMING_RUNNER:-} "$installed/$name")
    else
        needs "coreutils and findutils" find mkdir mktemp mv rm
        build
        # shellcheck source=tools/kit.sh
        . "$here/tools/kit.sh"
        proved_program "$program"
    fi

    lines
    case $last in
    refused\ *)
        # shellcheck disable=SC2086 # two words
        advise ${last#refused }
        exit "$refused"
        ;;
    packets\ *) exit "$measured" ;;
    *) fail "the file could not be read to its end, so there is no verdict: check what it comes from (a disk, a pipe) and try again" ;;
    esac
}

main() {
    (
        set -e
        work "$@"
    )
    case $? in
    "$measured") exit 0 ;;
    "$refused") exit 1 ;;
    2) exit 2 ;;
    # SIGPIPE: bash's own words, of --help, had no reader.
    141) unwritten ;;
    *) fail "it could not be run, and nothing is said of the file: what failed stands above; mend that and try again" ;;
    esac
}
