#!/bin/sh
# Debian's source packages of the crates that the tests of the features `serde` and `rayon` need: those that are missing are installed. Cargo finds them
# by .ci/debian.toml.
set -eu
missing=
for crate in serde serde-json bincode rayon; do
    folder=/usr/share/cargo/registry/$(echo "$crate" | tr - _)
    ls -d "$folder"-[0-9]* >/dev/null 2>&1 || missing="$missing librust-$crate-dev"
done
[ -n "$missing" ] || exit 0
install() {
    # shellcheck disable=SC2086
    apt-get install --yes --quiet --no-install-recommends $missing >&2
}
install || { apt-get update --quiet >&2 && install; } || {
    echo "the gate needs Debian's packages$missing, and couldn't install them"
    exit 1
}
