#!/usr/bin/env bash
# Feeds a built program with random formulas and streams, for some seconds; `fuzz.py` says how, and what is a failure.
#   fuzz.sh SECONDS PATH-OF-LRATJOIN [--seed N] [--keep FOLDER]
set -euo pipefail

exec python3 "$(dirname "$0")/fuzz.py" "$@"
