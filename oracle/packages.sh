# shellcheck shell=sh
# Sourced by build and rules.

say() {
    echo "oracle: $*" >&2
}

# Those of the commands that are not there.
lacking() {
    for name; do
        command -v "$name" >/dev/null || echo "$name"
    done
}

# Installs those of Debian's packages that are missing.
want() {
    missing=
    for package; do
        state=$(dpkg-query -W -f='${db:Status-Status}' "$package" 2>/dev/null) || state=
        [ "$state" = installed ] || missing="$missing $package"
    done
    [ -n "$missing" ] || return 0
    if [ "$(id -u)" != 0 ]; then
        say "install first, as root:$missing"
        exit 2
    fi
    say "installing$missing"
    # shellcheck disable=SC2086 # a list of words
    if ! { apt-get update -qq &&
        DEBIAN_FRONTEND=noninteractive apt-get install -y -qq --no-install-recommends $missing; } >&2; then
        say "could not install$missing"
        exit 2
    fi
}
