set -euo pipefail
for log in "$@"; do
  test -s "$log" || { echo "$log has no events" >&2; exit 1; }
done
cat "$@" | hlc audit --strict --limit 500
