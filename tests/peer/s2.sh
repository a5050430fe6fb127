#!/usr/bin/env bash
# The proved library and S2 asked the same random questions, and s2union_cover.h about the cells around cells, and about
# corridors: tests/run s2 -- [CASES [SEED]].
set -euo pipefail
cd "$(dirname "$0")"
bash ../../bench/build.sh ../tests/peer/neighbors.cc
../../bench/out/neighbors 20000
bash ../../bench/build.sh ../tests/peer/corridors.cc
../../bench/out/corridors 300
bash ../../bench/build.sh ../tests/peer/peer.cc
../../bench/out/peer "${1:-100000}" "${2:-1}"
