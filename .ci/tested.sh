#!/bin/sh
# The tests that `cargo test` runs by these words, which pick modules: all that it lists must pass, and the modules are those of picks.txt.
#
#     tested.sh SCRIPT WORDS..     in the folder of a package
set -eu
script=$1
shift
room=$(mktemp -d)
trap 'rm -rf "$room"' EXIT
case " $* " in *' -- '*) ;; *) set -- "$@" -- ;; esac
cargo test --offline --quiet "$@" --list | sed -n 's/: test$//p' | sort >"$room/listed"
cargo test --offline "$@" >"$room/printed" 2>&1 || { cat "$room/printed"; exit 1; }
sed -n 's/ - should panic / /; s/^test \(.*\) \.\.\. ok$/\1/p; s/^test \(.*\) \.\.\. ignored.*$/\1/p' "$room/printed" | sort | diff "$room/listed" - || {
    echo "cargo test $*: these tests were not run"
    exit 1
}
echo "cargo test $*: $(wc -l <"$room/listed") tests"
sed 's/::[^:]*$//; s/::tests$//' "$room/listed" | sort -u | python3 "$(dirname "$0")/picks.py" "$script" 'modules of tests'
