#!/bin/sh
# Tries tools/timeline and tools/summary: draws every example with a report, and reports made at random, reads the pictures as
# XML, and counts what stands in them against the reports; compares the order of the steps with that of the run; and gives
# them reports and scripts with mistakes. docs/timeline must be what the tools make. It skips itself where the tools are missing.
#
#     checks/timeline.sh [HOW_MANY [SEED]]
set -u
cd "$(dirname "$0")/.." || exit 1
python3 -c 'import cryptography, sys; sys.exit(sys.version_info < (3, 10))' 2>/dev/null ||
    { echo "timeline: skipped, no Python from 3.10 on with cryptography"; exit 0; }
exec python3 -B checks/timeline_cases.py "$@"
