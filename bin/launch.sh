# What the launchers of this folder have in common, which read this file: each runs a program of its own checkout, and first proves and builds it
# where it is missing or older than a source. A launcher defines `usage`, which prints how the program is called, and `trial`, a call of it on an
# example, and ends with: launch CRATE "$@"

top=$(cd "$(dirname "$(readlink -f "${BASH_SOURCE[0]}")")/.." && pwd) || exit 126

# Prints which state of the checkout is run.
version() {
    echo "$name, Fanorchid $(git -C "$top" describe --always --dirty 2>/dev/null || echo "of unknown version")"
}

# Whether there is no program, or a source that is newer.
is_stale() {
    [ -x "$program" ] || return 0
    local newer
    newer=$(find "$top/crates.txt" "$top"/crates/*/{src,specs,proofs} -type f -newer "$program" -print -quit 2>/dev/null)
    [ -n "$newer" ]
}

# Proves and builds the program, and runs it once on an example. The caller's standard input stays unread.
build() {
    (cd "$crate" && trial >/dev/null) && [ -x "$program" ]
}

# The program as the sources are now. Where it cannot be had, that is told and the status is 126.
renew() {
    if ! command -v rt >/dev/null; then
        echo "$name: the program is not built, and there is no rt on PATH to build it" >&2
        exit 126
    fi
    echo "$name: proving and building the program first, which takes some minutes" >&2
    local begun
    begun=$(mktemp) || exit 126
    if ! build; then
        rm -f "$begun"
        echo "$name: the program was not built" >&2
        exit 126
    fi
    # A source that changed meanwhile is newer than the program.
    touch -r "$begun" "$program"
    rm -f "$begun"
}

# Runs the program of a crate with the words behind it; --help and --version alone are answered here, without the program.
launch() {
    name=$1
    shift
    crate=$top/crates/$name
    program=$crate/out/$name
    case "$# ${1-}" in
        "1 --help") usage; exit ;;
        "1 --version") version; exit ;;
    esac
    if is_stale; then
        renew
    fi
    exec "$program" "$@"
}
