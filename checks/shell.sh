#!/bin/sh
# Looks through every shell script of the repository with shellcheck. It skips itself where that is missing.
set -u
cd "$(dirname "$0")/.." || exit 1
command -v shellcheck >/dev/null 2>&1 || { echo "shell: skipped, no shellcheck"; exit 0; }
set -- blkcrypt .ci/run
for folder in checks bench docs examples tools; do
    for script in "$folder"/*.sh; do
        [ -f "$script" ] && set -- "$@" "$script"
    done
done
shellcheck "$@" || exit 1
echo "shell: $# scripts, nothing to say"
