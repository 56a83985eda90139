#!/usr/bin/env bash
# Plays a plan past 2^32 ticks (tests/soak.c). Not a part of the gate: it takes some minutes.
#   tests/soak.sh [TICKS]         STAND_IN=1 takes the plain C of bench/ in the archive's place
set -eu
cd "$(dirname "$0")/.."
mkdir -p target/outside
. tests/platform.sh
build_archive target/outside
$cc -O3 tests/soak.c $with -o target/outside/soak
time target/outside/soak "$@"
