#!/bin/sh
# Lets wrong machines run, each of which has to be refused by what falls.sh looks at: see wrong.py. RAID_ORACLE names the folder of the model.
cd "$(dirname "$0")/.." || exit 1
. tests/common.inc
need_model wrong raid_world.py
if python3 tests/wrong.py; then
    exit 0
fi
echo "wrong: FAILED: a wrong machine isn't refused, or the right one is"
exit 1
