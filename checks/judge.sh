#!/bin/sh
# Tries the judge of reports: runs of one caller and of several threads that are lawful, and broken ones, each of which must
# be refused for the point that it breaks; and runs of wrong programs, of which it must refuse one each. It skips itself where
# the tools are missing.
#
#     checks/judge.sh [HOW_MANY [SEED]]
set -u
cd "$(dirname "$0")/.." || exit 1
python3 -c 'import cryptography, sys; sys.exit(sys.version_info < (3, 10))' 2>/dev/null ||
    { echo "judge: skipped, no Python from 3.10 on with cryptography"; exit 0; }
python3 -B checks/judge_cases.py "$@" && exec python3 -B checks/wrong_bodies.py "${2:-1}"
