#!/bin/sh
# Compares what the report's parser and printer answer with an independent model, over the examples of docs/REPORT.md and
# over reports made at random, whole and broken:
#
#     checks/report_texts.sh [REPORTS]
#
# It skips itself where the tools are missing.
set -u
cd "$(dirname "$0")/.." || exit 1
python3 -c 'import sys; sys.exit(sys.version_info < (3, 9))' 2>/dev/null ||
    { echo "report_texts: skipped, no Python from 3.9 on"; exit 0; }
program=crates/bc_speed/out/bc_speed
if command -v rt >/dev/null; then
    (cd crates/bc_speed && rt run -- digest xts 512 1) >/dev/null || exit 1
elif ! [ -x "$program" ]; then
    echo "report_texts: skipped, no rt and no program"
    exit 0
fi
exec python3 -B checks/report_model.py "$program" "${1:-400}"
