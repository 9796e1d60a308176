# shellcheck shell=bash
# Sourced by scripts that need more than a bare Debian has. `install=yes` lets root fetch what is missing.

# fetch PACKAGE..: from Debian, where that is allowed. The caller looks whether it helped, and says what is missing.
fetch() {
    [ "${install:-no}" = yes ] && [ "$(id -u)" = 0 ] && command -v apt-get >/dev/null || return 0
    apt-get -o Acquire::Retries=3 update -qq >&2 || return 0
    DEBIAN_FRONTEND=noninteractive apt-get -o Acquire::Retries=3 install -y -qq "$@" >&2 || return 0
}

# lacking WHAT PACKAGE..: ends the script with what to install.
lacking() {
    echo "$0: $1. On Debian, as root: apt-get install ${*:2}" >&2
    exit 2
}

# need COMMAND PACKAGE..: the command is there.
need() {
    command -v "$1" >/dev/null && return
    fetch "${@:2}"
    command -v "$1" >/dev/null || lacking "$1 is missing" "${@:2}"
}
