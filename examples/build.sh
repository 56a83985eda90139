#!/usr/bin/env bash
# Builds the executive over the proved archive, and plays it on the plan files named, else on every one here.
#   examples/build.sh [PLAN..]         STAND_IN=1 takes the plain C of bench/ in the archive's place, so that it can be tried without a proof
set -eu
cd "$(dirname "$0")/.."
mkdir -p target/examples
. tests/platform.sh
build_archive target/examples
$cc -O2 examples/executive.c $with -o target/examples/executive
[ $# -gt 0 ] || set -- examples/*.plan
for plan; do
    echo "== $plan"
    target/examples/executive "$plan"
done
