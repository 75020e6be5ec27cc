#!/bin/sh
# Looks at the repository's own texts: no link of a page is dead (links.py), and docs/claim.md lists what has to be believed
# (claim.py), and each must-fail edit can be applied (edits.py). Then counts what stands twice (doubled.py) and what is named nowhere
# (unnamed.py), which fails nothing.
cd "$(dirname "$0")/.." || exit 1
. tests/common.inc
need_python sources

status=0
python3 tests/links.py || status=1
python3 tests/claim.py || status=1
python3 tests/edits.py || status=1
python3 tests/doubled.py --count
python3 tests/unnamed.py --count
[ "$status" -eq 0 ] || echo "sources: FAILED"
exit "$status"
