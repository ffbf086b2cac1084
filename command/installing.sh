# shellcheck shell=bash
# For ../host/cargo and ../page/needs.sh, which source it: Debian's packages, where they may be installed. `say` is theirs.

install() { # PACKAGES
    [ "$(id -u)" = 0 ] && command -v apt-get >/dev/null || return 1
    say "installing $*"
    apt-get update -q >/dev/null && DEBIAN_FRONTEND=noninteractive apt-get install -y -q --no-install-recommends "$@" >/dev/null
}
