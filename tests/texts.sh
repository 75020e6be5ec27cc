#!/bin/sh
# Reads random and broken workload texts as the reference model does: see texts.py.
# RAID_ORACLE names the folder of the model, RAID_TEXTS how many texts there are to be (20000), RAID_SEED which (1).
cd "$(dirname "$0")/.." || exit 1
. tests/common.inc
need_model texts raid_text.py
make_scratch

build texts raid_try_text || exit 1
if python3 tests/texts.py crates/raid_try_text/out/raid_try_text "${RAID_TEXTS:-20000}" "${RAID_SEED:-1}"; then
    exit 0
fi
echo "texts: FAILED: the program and the model differ"
exit 1
