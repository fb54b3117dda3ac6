#!/usr/bin/env bash
# The package on targets that the proofs know nothing of: with a `usize` of 32 bits, with another order of bytes, in a browser. On each the
# tests pass, the program of rust/digest prints what it prints here, and each one reads the images that this machine writes, and the other
# way round.
#
#     targets.sh             as in the gate: i686, and if something is missing, that it isn't tried
#     targets.sh all         before a release: all of them
#     targets.sh TARGET..    these of i686, wasm32, page, armv7, aarch64, s390x
#     targets.sh passed      whether all of them have passed with what the commit has in rust/
#
# Debian's packages have all that it needs: Rust of at least 1.88 with the sources of its library, a linker, the C libraries, QEMU, Node and
# Chromium. They are unpacked below FORGENI_TARGETS, by default ~/.cache/forgeni-targets, and nothing is installed. There the library is
# built too, for each target once. i686 runs on this machine. armv7, aarch64 and s390x run under an emulator, which shows nothing of weaker
# memory ordering. wasm32 has no threads: there a module runs under Node, with the feature `std` and without it. `page` is the page of
# rust/forgeni/examples/web in Chromium.
set -euo pipefail
cd "$(dirname "$0")/.."
all="i686 wasm32 page armv7 aarch64 s390x"
gcc=12 llvm=22 rust=rustc-web
compilers="cargo-web $rust rust-web-src lld-$llvm"

store=${FORGENI_TARGETS:-${XDG_CACHE_HOME:-$HOME/.cache}/forgeni-targets}
release=
case "${*:-}" in
"") set -- i686 ;;
all) set -- $all && release=yes ;;
passed) exec grep -qx "$(git rev-parse HEAD:rust)" "$store/passed" ;;
*) release=yes ;;
esac

# packages TARGET: those that it needs beside the compilers.
packages() {
    case $1 in
    i686) echo libc6-dev-i386 "lib32gcc-$gcc-dev" ;;
    wasm32) command -v node >/dev/null || echo nodejs ;;
    page) echo chromium ;;
    armv7) echo qemu-user libc6-dev-armhf-cross "libgcc-$gcc-dev-armhf-cross" ;;
    aarch64) echo qemu-user libc6-dev-arm64-cross "libgcc-$gcc-dev-arm64-cross" ;;
    s390x) echo qemu-user libc6-dev-s390x-cross "libgcc-$gcc-dev-s390x-cross" ;;
    *) echo "targets.sh: $1 is none of $all" >&2 && exit 2 ;;
    esac
}

# The version of the compiler that Debian has, if it is one that the package takes.
version() {
    found=$(apt-cache policy "$rust" | sed -n 's/^ *Candidate: //p')
    printf '%s\n' "1.88" "$found" | sort --version-sort --check=silent && [ "$found" != "(none)" ] && echo "${found%%[+~-]*}"
}

# unpack PACKAGE..: fetches these, with those that they need and this machine hasn't, and unpacks them.
unpack() {
    cd "$cache/packages"
    apt-get install --simulate --no-install-recommends "$@" | sed -n 's/^Inst \([^ ]*\) .*/\1/p' >../needed
    xargs -r apt-get download --quiet <../needed
    for package in *.deb; do
        [ -e "../unpacked/$package" ] || { dpkg -x "$package" ../root && touch "../unpacked/$package"; }
    done
    cd "$OLDPWD"
}

# ready TARGET: what it needs is unpacked, from this run or an earlier one.
ready() {
    # shellcheck disable=SC2046,SC2086
    [ -e "$cache/ready-$1" ] || { unpack $compilers $(packages "$1") && touch "$cache/ready-$1"; } >"$out/fetched" 2>&1 || {
        tail -n 3 "$out/fetched"
        return 1
    }
}

# linked TRIPLE LIBRARIES GCC: has cargo link statically for a target, without a compiler of C.
linked() {
    flags="-Coverflow-checks=on -Clinker=$root/usr/lib/llvm-$llvm/bin/ld.lld -Clinker-flavor=ld.lld -Ctarget-feature=+crt-static"
    flags="$flags -Crelocation-model=static -L$2 -L$3"
    for before in "$2/crt1.o" "$2/crti.o" "$3/crtbeginT.o"; do
        flags="$flags -Zpre-link-args=$before"
    done
    for after in --start-group -lgcc -lgcc_eh -lc --end-group "$3/crtend.o" "$2/crtn.o"; do
        flags="$flags -Clink-arg=$after"
    done
    triple=$1
    variable=CARGO_TARGET_$(echo "$1" | tr a-z- A-Z_)
    export "${variable}_RUSTFLAGS=$flags"
}

# set_up TARGET: how its programs are linked and run.
set_up() {
    emulator=
    cross=$root/usr/lib/gcc-cross
    case $1 in
    i686) linked i686-unknown-linux-gnu "$root/usr/lib32" "$root/usr/lib/gcc/x86_64-linux-gnu/$gcc/32" ;;
    armv7) linked armv7-unknown-linux-gnueabihf "$root/usr/arm-linux-gnueabihf/lib" "$cross/arm-linux-gnueabihf/$gcc" ;;
    *) linked "$1-unknown-linux-gnu" "$root/usr/$1-linux-gnu/lib" "$cross/$1-linux-gnu/$gcc" ;;
    esac
    [ "$1" = i686 ] || emulator=$root/usr/bin/qemu-${1%v7}
    export FORGENI_EMULATOR=$emulator
    # The emulator keeps 0.3 MB for each thread that has ended, so there are fewer seeds and phases.
    [ -z "$emulator" ] || export "${variable}_RUNNER=$emulator" FORGENI_SEEDS="${FORGENI_SEEDS:-10}" FORGENI_PHASES="${FORGENI_PHASES:-500}"
}

# What takes too much memory under an emulator. And what limits the memory of a process: an emulator of 32 bits reserves 4 GiB for it.
skipped=limits::commands_at_the_end_of_a_quota
limited="a_sync_point_goes_on_after_it_stopped a_refused_share_gives_the_allocator_back a_refused_open_gives_the_world_back"
for test in $skipped $limited; do
    grep -rqx "fn ${test##*::}() {" rust/forgeni/tests || { echo "there is no test $test to skip"; exit 1; }
done

# tested TARGET: all tests of the package pass.
tested() {
    status=0 skip=
    [ -z "$emulator" ] || skip=$skipped
    [ "$1" != armv7 ] || skip="$skip $limited"
    # shellcheck disable=SC2086
    (cd rust/offline && cargo test --lib --tests --no-fail-fast -Zbuild-std=std,panic_unwind,test --target "$triple" -- \
        --include-ignored --exact ${skip:+--skip ${skip// / --skip }}) >"$out/printed" 2>&1 || status=$?
    [ "$status" = 0 ] || { cat "$out/printed"; exit 1; }
    passed=$(awk '/^test result: ok/ { passed += $4 } END { print passed + 0 }' "$out/printed")
    [ "$passed" -gt 0 ] || { echo "$1: no test ran"; exit 1; }
    echo "$1: $passed tests passed${skip:+ (not run: $skip)}, with overflow checks"
}

# same TARGET COMMAND..: the program of rust/digest, called so, does what it does here.
same() {
    local on=$1
    shift
    "$@" | diff "$out/text" - && "$@" images | cmp "$out/images" - && "$@" again <"$out/images" | cmp "$out/images" - || {
        echo "$on: not what this machine has"
        exit 1
    }
    "$@" images | "$here" again | cmp "$out/images" -
    echo "$on: $(wc -l <"$out/text") digests and $(wc -c <"$out/images") bytes of images as on this machine, read here and there"
}

# quiet WORD..: cargo, whose lines are shown if it fails.
quiet() {
    cargo "$@" >"$out/printed" 2>&1 || { cat "$out/printed"; exit 1; }
}

# module TARGET WORD..: builds the library of a folder as a module of WebAssembly.
module() {
    quiet rustc --manifest-path "$1/Cargo.toml" --release --lib --crate-type cdylib --target wasm32-unknown-unknown \
        -Zbuild-std=std,panic_abort "${@:2}"
}

# The page plays the frames of the example `game`, and shows the same digest. Here it also asks the server for a file of that name, or of an
# error's, and the server prints that. (Chromium's `--dump-dom` doesn't wait for frames: its virtual time may run out between two.)
page() {
    web=rust/forgeni/examples/web
    module $web
    built=wasm32-unknown-unknown/release/game.wasm
    mkdir -p "$out/web/target/${built%/*}"
    cp "$CARGO_TARGET_DIR/$built" "$out/web/target/$built"
    cat $web/index.html - >"$out/web/index.html" <<'END'
<script>
const digest = document.getElementById("digest");
const tell = (what) => fetch("shown/" + encodeURIComponent(what));
new MutationObserver(() => tell(digest.textContent)).observe(digest, { childList: true });
addEventListener("error", (event) => tell(event.message));
addEventListener("unhandledrejection", (event) => tell(event.reason));
</script>
END
    python3 -u -m http.server --bind 127.0.0.1 --directory "$out/web" 0 >"$out/served" 2>&1 &
    until grep -q 'port' "$out/served"; do sleep 0.1; done
    port=$(sed -n 's/.* port \([0-9]*\) .*/\1/p' "$out/served")
    chromium=$root/usr/lib/chromium/chromium
    [ -x "$chromium" ] || chromium=chromium
    "$chromium" --headless --no-sandbox --disable-gpu --user-data-dir="$out/profile" --enable-logging=stderr --v=0 \
        "http://127.0.0.1:$port/" >"$out/printed" 2>&1 &
    for ((second = 0; second < 300; second++)); do
        ! grep -q 'GET /shown/' "$out/served" || break
        sleep 1
    done
    ended
    digest=$(sed -n 's/^.*threads: 1, .*digest: //p' rust/forgeni/examples/game.rs)
    grep -q "GET /shown/$digest " "$out/served" || { echo "page: not the digest $digest"; cat "$out/served" "$out/printed"; exit 1; }
    echo "page: $("$chromium" --version 2>/dev/null) shows the digest of the example game, $digest;" \
        "the module has $(wc -c <"$CARGO_TARGET_DIR/$built") bytes"
}

# What was started beside this is ended.
ended() {
    # shellcheck disable=SC2046
    kill $(jobs -p) 2>/dev/null || true
    wait
}

out=$(mktemp -d)
trap 'ended; rm -rf "$out"' EXIT
version=$(version || { apt-get update --quiet >/dev/null 2>&1 && version; }) || {
    echo "targets.sh: not tried, since Debian's $rust can't be had, or is older than 1.88: $*"
    [ -z "$release" ] || exit 1
    exit 0
}
cache=$store/$version
root=$cache/root
mkdir -p "$cache"/{packages,unpacked,root,cargo}

cargo build --offline --quiet --release --manifest-path rust/digest/Cargo.toml
here=$PWD/rust/digest/target/release/digest
"$here" >"$out/text"
"$here" images >"$out/images"
"$here" again <"$out/images" | cmp "$out/images" -

cat >"$cache/cargo/config.toml" <<END
[source.crates-io]
replace-with = "library"
[source.library]
directory = "$root/usr/src/rustc-$version/library/vendor"
END
unset RUSTC RUSTFLAGS RUSTUP_TOOLCHAIN CARGO_BUILD_TARGET
export PATH=$root/usr/bin:$PATH LD_LIBRARY_PATH=$root/usr/lib/x86_64-linux-gnu:$root/usr/lib/x86_64-linux-gnu/pulseaudio
export CARGO_HOME=$cache/cargo CARGO_TARGET_WASM32_UNKNOWN_UNKNOWN_LINKER=$root/usr/lib/llvm-$llvm/bin/wasm-ld
# A feature of cargo and one of rustc that are not stable: they build the library, and give the linker what stands before all else.
export RUSTC_BOOTSTRAP=1
# Without the crates that name the lines of a backtrace, which take a third of the time.
export CARGO_UNSTABLE_BUILD_STD_FEATURES=panic-unwind
# Optimised a little: without that it takes ten times as long.
export CARGO_PROFILE_DEV_OPT_LEVEL=1 CARGO_PROFILE_DEV_DEBUG=0 CARGO_INCREMENTAL=0
# The same for each module, so that they have one library.
export CARGO_PROFILE_RELEASE_OVERFLOW_CHECKS=true CARGO_PROFILE_RELEASE_PANIC=abort
export CARGO_TARGET_DIR=$cache/target

for target in "$@"; do
    ready "$target" || {
        echo "$target: not tried, since Debian's packages for it can't be had"
        [ -z "$release" ] || exit 1
        continue
    }
    begun=$SECONDS
    case $target in
    wasm32)
        for built in "" --no-default-features; do
            # shellcheck disable=SC2086
            module rust/digest $built
            same "wasm32 ${built:-with the feature std}" node rust/digest/run.mjs "$CARGO_TARGET_DIR/wasm32-unknown-unknown/release/digest.wasm"
        done
        ;;
    page) page ;;
    *)
        set_up "$target"
        tested "$target"
        quiet build --manifest-path rust/digest/Cargo.toml -Zbuild-std=std,panic_unwind --target "$triple"
        # shellcheck disable=SC2086
        same "$target" $emulator "$CARGO_TARGET_DIR/$triple/debug/digest"
        ;;
    esac
    echo "$target: $((SECONDS - begun)) seconds, with $(rustc --version)"
done
[ "$*" != "$all" ] || [ -n "$(git status --porcelain rust)" ] || git rev-parse HEAD:rust >>"$store/passed"
