#!/bin/sh
# Makes the files of a release, from a commit.
#
#     ./release.sh VERSION FOLDER
#
# FOLDER gets
#     forgeni-VERSION.tar.gz         the repository, in a folder of that name
#     forgeni-VERSION.crate          the package with the two programs, as `cargo package` makes it
#     forgeni-VERSION-changes.md     the section of CHANGELOG.md
#     SHA256SUMS                     their checksums, for `sha256sum --check`
#
# The same commit gives the same bytes. It refuses a folder that has files, a tree with changes that are not committed, a version that
# CHANGELOG.md has no section of, or that isn't that of the package and of both programs, changes that are still listed as unreleased, and
# erased sources that are not those of crates/, and what `.ci/targets.sh all` hasn't passed with. It needs `git`, `cargo`, `gzip`, `python3` and `sha256sum`, and no
# network. It doesn't run the gate.
set -eu
refuse() {
    echo "release: $*" >&2
    exit 1
}
[ $# = 2 ] || refuse "the words are VERSION FOLDER"
version=$1 folder=$2
top=$(cd "$(dirname "$0")" && pwd)

# section TITLE: the lines below that heading of CHANGELOG.md, up to the next one. A heading may go on with a date.
section() {
    awk -v title="## $1" '
        /^## / { inside = ($0 == title || index($0, title " ") == 1); next }
        inside { lines = lines $0 "\n" }
        END { sub(/^\n+/, "", lines); sub(/\n+$/, "\n", lines); printf "%s", lines }
    ' "$top/CHANGELOG.md"
}

[ -z "$(ls -A "$folder" 2>/dev/null)" ] || refuse "$folder has files"
[ -z "$(git -C "$top" status --porcelain)" ] || refuse "there are changes that are not committed"
[ -n "$(section "$version")" ] || refuse "CHANGELOG.md has no section $version"
[ -z "$(section Unreleased)" ] || refuse "CHANGELOG.md lists changes as unreleased"
grep -qxF "version = \"$version\"" "$top/rust/forgeni/Cargo.toml" || refuse "rust/forgeni/Cargo.toml has another version"
for source in spawnrun_lib/src/task.rt tracecheck/src/command_line.rt; do
    grep -qxF "const VERSION: &str = \"$version\";" "$top/crates/$source" || refuse "crates/$source has another version"
done
cargo run --offline --quiet --manifest-path "$top/rust/erase/Cargo.toml" -- --check >/dev/null ||
    refuse "rust/forgeni/src/proved isn't what rust/erase makes of crates/"
"$top/.ci/targets.sh" passed 2>/dev/null || refuse ".ci/targets.sh all hasn't passed with this commit"

name=forgeni-$version
mkdir -p "$folder"
folder=$(cd "$folder" && pwd)
packed=$(mktemp -d)
trap 'rm -rf "$packed"' EXIT
git -C "$top" archive --format=tar --prefix="$name/" HEAD | gzip -9n >"$folder/$name.tar.gz"
python3 "$top/.ci/empty_crates.py" "$top/rust/forgeni" "$packed/empty"
cargo package --config "$packed/empty/config.toml" --offline --locked --quiet --no-verify --manifest-path "$top/rust/forgeni/Cargo.toml" \
    --target-dir "$packed"
cp "$packed/package/$name.crate" "$folder"
section "$version" >"$folder/$name-changes.md"
cd "$folder"
sha256sum "$name.crate" "$name.tar.gz" "$name-changes.md" >SHA256SUMS
cat SHA256SUMS
