#!/bin/sh
# Tries `release.sh` in a clone whose CHANGELOG.md has a section of the package's version: it makes the same bytes twice, its archives are
# whole, and it refuses what it has to.
set -eu
top=$(cd "$(dirname "$0")/.." && pwd)
room=$(mktemp -d)
trap 'rm -rf "$room"' EXIT
version=$(sed -n 's/^version = "\(.*\)"$/\1/p' "$top/rust/forgeni/Cargo.toml")
name=forgeni-$version
git clone -q "$top" "$room/clone"
cd "$room/clone"
git config user.name release
git config user.email release@localhost
export CARGO_TARGET_DIR=$room/target FORGENI_TARGETS=$room/targets

# refuses WHY WORDS..: with these words it ends with 1, says so, and makes no file.
refuses() {
    why=$1
    shift
    status=0
    ./release.sh "$@" >"$room/printed" 2>"$room/said" || status=$?
    [ "$status" = 1 ] && grep -q "$why" "$room/said" && [ ! -e "$room/none" ] || {
        cat "$room/printed" "$room/said"
        echo "release.sh $*: it doesn't refuse that $why"
        exit 1
    }
}

refuses 'the words are' "$version"
sed "s/^## Unreleased.*/## $version/" CHANGELOG.md >"$room/changelog"
grep -q "^## $version" CHANGELOG.md || {
    refuses "no section $version" "$version" "$room/none"
    cp "$room/changelog" CHANGELOG.md
    refuses 'not committed' "$version" "$room/none"
    git commit -qam "Version $version"
}
refuses "all hasn't passed" "$version" "$room/none"
mkdir "$FORGENI_TARGETS"
git rev-parse HEAD:rust >"$FORGENI_TARGETS/passed"
./release.sh "$version" "$room/one" >/dev/null
refuses 'has files' "$version" "$room/one"
refuses 'no section 9.9.9' 9.9.9 "$room/none"
: >new
refuses 'not committed' "$version" "$room/none"
rm new
sleep 1
./release.sh "$version" "$room/other" >/dev/null
diff -r "$room/one" "$room/other"
(cd "$room/one" && sha256sum --quiet --check SHA256SUMS)
[ "$(ls "$room/one" | wc -l)" = 4 ]
gzip -dc "$room/one/$name.tar.gz" | tar -xf - -C "$room"
git ls-files >"$room/listed"
(cd "$room/$name" && find . ! -type d | sed 's,^\./,,' | LC_ALL=C sort) | diff - "$room/listed"
awk '/^## /{ n++; next } n == 1' CHANGELOG.md | sed '/./,$!d' | diff - "$room/one/$name-changes.md"
[ -s "$room/one/$name-changes.md" ]

# What it can't make a release of.
sed 's/^const VERSION.*/const VERSION: \&str = "9.9.9";/' crates/tracecheck/src/command_line.rt >"$room/source"
cp "$room/source" crates/tracecheck/src/command_line.rt
git commit -qam 'Another version of a program'
refuses 'has another version' "$version" "$room/none"
git reset -q --hard HEAD~
sed 's/pub enum Task/pub enum Job/' rust/forgeni/src/proved/spawnrun_lib/task.rs >"$room/source"
cp "$room/source" rust/forgeni/src/proved/spawnrun_lib/task.rs
git commit -qam 'Another erased source'
refuses "isn't what rust/erase makes" "$version" "$room/none"
git reset -q --hard HEAD~
printf '\n## Unreleased\n\n- More.\n' >>CHANGELOG.md
git commit -qam 'More changes'
refuses 'as unreleased' "$version" "$room/none"
echo "release.sh makes $(ls "$room/one" | wc -l) files of version $version, twice the same, and refuses what it has to"
