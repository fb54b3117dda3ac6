#!/bin/sh
# Shows that a program which closes a `Shared` while it holds a reply of it doesn't compile: keeps a reply in a copy of the example of two
# threads in crates/cases_and_examples, uses it after the close, and fails unless the compiler refuses the move. It proves nothing, and needs `rt`,
# `patch` and `timeout` on the path.
set -eu
top=$(cd "$(dirname "$0")/.." && pwd)
copy=$(mktemp -d)
trap 'rm -rf "$copy"' EXIT

tar -C "$top" --exclude=out -c crates crates.txt HANDLES | tar -x -C "$copy"
cd "$copy/crates/cases_and_examples"
# The other examples and what they use are left out, which takes less time.
sed -i 's/^cases_and_examples:.*/cases_and_examples: ent_shared ent_alloc ent_handle anyhow/' ../../crates.txt
find src -name '*.rt' ! -name caller.rt ! -name two_threads.rt -delete
rm -r specs proofs
cat >src/main.rt <<'MAIN'
mod examples;

fn main(rt: HostRuntime) -> anyhow::Result<()> {
    examples::two_threads::show(&rt)
}
MAIN
printf '%s\n' 'mod caller;' 'pub mod two_threads;' >src/examples.rt
patch --quiet -p1 <<'PATCH'
--- a/src/examples/two_threads.rt
+++ b/src/examples/two_threads.rt
@@ -3,3 +3,6 @@
     reserve(rt, &shared, &mut a, &mut b)?;
-    end(rt, shared, a, b)
+    let held = shared.reserve_many(&mut a.reserver, 24)?;
+    let given = end(rt, shared, a, b)?;
+    println!(rt; "{} held", held.len())?;
+    Ok(given)
 }
PATCH
# The quick pass over the sources, which comes before the first proof, refuses it.
timeout 300 rt check >"$copy/said" 2>&1 || true
grep 'cannot move out of `shared` because it is borrowed' "$copy/said" || {
    cat "$copy/said"
    exit 1
}
