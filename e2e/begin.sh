# How each script of the end-to-end checks begins, so that it can also be run by itself: the built program, what the checks
# share, and an empty folder of its own to work in. Each ends with `counted`.
set -u
top=$(cd "$(dirname -- "${BASH_SOURCE[0]}")/.." && pwd)
pbfrow=$top/crates/pbfrow/out/pbfrow
export top pbfrow
. "$top/e2e/checks.sh"

"$top/pbfrow" --build-only || { echo "0 passed, 1 failed"; exit 1; }
work=$(mktemp -d)
trap 'cd / && rm -rf "$work"' EXIT
cd "$work" || exit 2
