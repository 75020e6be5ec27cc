#!/bin/sh
# Lets sites and sequencers hear random letters, and compares what they do with the reference model: see make_letters.py and
# make_sequencer_letters.py.
# RAID_ORACLE names the folder of the model, RAID_LETTERS how many sequences there are to be (5000), RAID_SEED which (1).
cd "$(dirname "$0")/.." || exit 1
. tests/common.inc
need_model letters raid_world.py
make_scratch

# hear CRATE SCRIPT: the crate's program, built once on its own input, hears what the script writes
hear() {
    build letters "$1" || return 1
    python3 "tests/$2" --sequences "${RAID_LETTERS:-5000}" --seed "${RAID_SEED:-1}" > "$scratch/letters" || return 1
    "crates/$1/out/$1" < "$scratch/letters" > "$scratch/said" || return 1
    tail -20 "$scratch/said"
    grep -q ' 0 heard otherwise$' "$scratch/said"
}

if hear raid_site_table make_letters.py && hear raid_sequencer_table make_sequencer_letters.py; then
    exit 0
fi
echo "letters: FAILED: a program and the model differ"
exit 1
