# Shared by the commands: what they need, and how they say so. Sourced, not run.
# shellcheck shell=sh disable=SC2034
PATH=$PATH:/opt/rattle/bin

INSTALL_RT='the Rattle toolchain: unpack its kit to /opt/rattle'
INSTALL_CARGO='Rust 1.78 or newer, with cargo: apt install cargo from Debian 13 on, or https://rustup.rs'
INSTALL_GCC='GCC 8 or newer, for C and C++: apt install build-essential, or dnf install gcc gcc-c++'
INSTALL_SANITIZERS='GCC: apt install build-essential, or on their own: dnf install libasan libubsan'
INSTALL_VALGRIND='apt install valgrind, or dnf install valgrind-devel'

say() { printf '== %s\n' "$*"; }

# need COMMAND HOW: stops with one sentence where a command is missing
need() {
    command -v "$1" >/dev/null 2>&1 && return
    printf '%s is missing. It comes with %s\n' "$1" "$2" >&2
    exit 2
}

# keep: a folder $kept outside the checkout, for as long as the script runs
keep() {
    kept=$(mktemp -d)
    trap 'rm -rf "$kept"' EXIT
    trap 'exit 1' HUP INT TERM
}

# leaving_status COMMAND..: the first of a pipe. A pipe has the status of its last command, so that of this one is left in $kept/status;
# where it could not be written the command did not end, and reading it fails.
leaving_status() {
    status=0
    "$@" || status=$?
    echo "$status" >"$kept/status"
}

# shown COMMAND..: its output is shown and added to $kept/log, and its status is the command's
shown() {
    rm -f "$kept/status"
    leaving_status "$@" | tee -a "$kept/log"
    return "$(cat "$kept/status" || echo 1)"
}

# pass_over PART WHY: says that a part is not tried; the summary counts and names it
pass_over() { shown echo "passed over: $1, since $2"; }

# quietly COMMAND..: its output is shown only where it fails
quietly() {
    log=$(mktemp)
    if "$@" >"$log" 2>&1; then rm -f "$log"; else
        status=$?
        cat "$log" >&2
        rm -f "$log"
        exit "$status"
    fi
}

# build NAME: target/staticlib/libNAME.a, proved and built by the crate NAME_c, which exports to C what the crate NAME has
build() {
    (cd "crates/$1_c" && quietly rt lib)
    mkdir -p target/staticlib
    cp "crates/$1_c/out/lib$1_c.a" "target/staticlib/lib$1.a.new"
    mv -f "target/staticlib/lib$1.a.new" "target/staticlib/lib$1.a"
}

# library NAME: the same, unless it is there and newer than every file of every crate
library() {
    built=target/staticlib/lib$1.a
    if [ -f "$built" ] && [ -z "$(find crates crates.txt -name out -prune -o -type f -newer "$built" -print | head -n 1)" ]; then return; fi
    need rt "$INSTALL_RT"
    say "proving and building $built: some minutes, the first time"
    build "$1"
}
