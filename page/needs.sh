# shellcheck shell=bash
# For build, test and measure, which source it: what they need, and the one line that is said where it cannot be had. They name themselves in `who`, and in
# `not` what then is not done.

# shellcheck source=command/installing.sh
. ../command/installing.sh || exit 3

say() { echo "${who:?}: $*" >&2; }

missing() { # WHAT HOW-TO-HAVE-IT
    say "NOT ${not:?}: $1 is not here. $2, and try again"
    exit 77
}

wasm_opt_is_here() { command -v wasm-opt >/dev/null; }

# the reporters of its tests came with this version
node_is_here() {
    command -v node >/dev/null &&
        node -e 'const [major, minor] = process.versions.node.split(".").map(Number); process.exit(major > 18 || (major === 18 && minor >= 17) ? 0 : 1)'
}

chromium_is_here() { command -v chromium-headless-shell >/dev/null || command -v chromium >/dev/null; }

# What is not here is installed where that may be done.
need() { # WHETHER-IT-IS-HERE WHAT PACKAGE
    "$1" && return
    install "$3"
    "$1" || missing "$2" "Install Debian's $3"
}

# Whether the folder that SUNDEWFRILL_PAGE names, if it names one, is there.
need_other_page() {
    [ -z "$SUNDEWFRILL_PAGE" ] || [ -d "$SUNDEWFRILL_PAGE" ] && return
    say "there is no folder $SUNDEWFRILL_PAGE"
    exit 2
}
