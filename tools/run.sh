#!/usr/bin/env bash
# Runs the tool on a scenario: tools/run.sh SCENARIO [WORD ..]
#
# Where the proved program was built and no source has changed since, that program runs. Else the
# tool runs from its source, which proves nothing and takes a minute or two: `make build` proves and
# builds it.
set -eu
if [ -z "${1-}" ]; then
    echo "tools/run.sh SCENARIO [WORD ..]: crates/mig_tool/README.md has what a scenario is" >&2
    exit 2
fi
if [ ! -r "$1" ]; then
    echo "$1: there is no such scenario, or it can't be read" >&2
    exit 2
fi
scenario=$(realpath "$1")
shift
cd "$(dirname "$0")/.."
built=crates/mig_tool/out/mig_tool
if [ -x "$built" ] && [ -z "$(find crates.txt crates/*/src crates/*/specs crates/*/proofs -newer "$built" -print -quit)" ]; then
    exec "$built" "$@" < "$scenario"
fi
if ! command -v rt > /dev/null; then
    echo "there is no rt on the PATH: the Rattle kit has it in its folder bin" >&2
    exit 2
fi
echo "from its source, unproved (make build proves it):" >&2
said=$(mktemp)
trap 'rm -f "$said"' EXIT
cd crates/mig_tool
status=0
rt try -- "$@" < "$scenario" 2> "$said" || status=$?
# what rt prints of the run itself matters only where the program didn't end
grep -q '^run=ended' "$said" || cat "$said" >&2
exit $status
