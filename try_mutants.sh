#!/bin/sh
# Tries mutants, those of the gate and all others: the prover has to refuse each, by what its file names. It prints a line for each with
# its time, and ends with those that were not refused so. The arguments are crates, as in `./try_mutants.sh ent_storage`, or
# `--changed REV`: the crates whose sources, specs or proofs differ since that commit. Without one it tries all. The crates below are built
# if they aren't yet. It needs `rt` and `python3` on the path, and ends with 0 exactly if all were refused.
cd "$(dirname "$0")" && exec python3 .ci/mutants.py try "$@"
