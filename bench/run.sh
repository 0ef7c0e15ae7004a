#!/usr/bin/env bash
# Builds the program, where that is needed, and prints the table of run.py and the times of recording.py and hostile.py: bench/run.sh [--events N] [KIND ..]
set -eu
cd "$(dirname "$0")/.."
./pmtrim --prove > /dev/null
python3 bench/run.py "$@"
python3 bench/recording.py crates/pmtrim/out/pmtrim
python3 bench/hostile.py crates/pmtrim/out/pmtrim
