#!/bin/sh
# Judges random histories and runs of the reference model by the definitions: see histories.py.
# RAID_ORACLE names the folder of the model, RAID_HISTORIES how many there are to be (20), RAID_SEED which (1).
cd "$(dirname "$0")/.." || exit 1
. tests/common.inc
need_model histories fuzz.py
make_scratch

# a copy of the crates that the lemmas stand on, and a crate for the lemmas
mkdir -p "$scratch/crates/trial/src" "$scratch/crates/trial/specs" "$scratch/crates/trial/proofs"
cp HANDLES "$scratch"
below="raid_base raid_program raid_workload raid_rules raid_legal raid_message raid_steps"
for crate in $below; do
    mkdir "$scratch/crates/$crate"
    cp -r "crates/$crate/src" "crates/$crate/specs" "crates/$crate/proofs" "$scratch/crates/$crate/"
    grep "^$crate:" crates.txt >> "$scratch/crates.txt"
done
echo "trial: $below" >> "$scratch/crates.txt"
printf '//! Random histories.\n#![tactic(auto)]\n' > "$scratch/crates/trial/src/lib.rt"
: > "$scratch/crates/trial/specs/Lib.antt"

python3 tests/histories.py "$scratch/crates/trial" "${RAID_HISTORIES:-20}" "${RAID_SEED:-1}" > "$scratch/counts" || exit 1
if (cd "$scratch/crates/trial" && rt check > "$scratch/log" 2>&1); then
    echo "histories: judged as the model does; $(cat "$scratch/counts")"
else
    grep -E "error" -A 2 "$scratch/log" | cut -c1-400 | head -20
    echo "histories: FAILED: the definitions and the model differ"
    exit 1
fi
