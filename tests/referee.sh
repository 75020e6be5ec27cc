#!/bin/sh
# Replays the reports of the examples, and that of a made workload, in the printed order: see referee.py. The made one wants the proved
# program, or else that of bin/try, which compiles it twice.
# RAID_MADE says how many programs the made workload is to have (500), RAID_SEED which one (1).
cd "$(dirname "$0")/.." || exit 1
. tests/common.inc
need_python referee
make_scratch

# fail REASON: ends the script.
fail() {
    echo "referee: FAILED: $1"
    exit 1
}

count=0
for text in examples/*.txt; do
    python3 tests/referee.py "$text" <"${text%.txt}.report" >"$scratch/said" || fail "$(cat "$scratch/said")"
    count=$((count + 1))
done
echo "referee: the reports of $count examples are what a replay in their order gives"

program=bin/try
is_current raid && program=bin/raid
[ "$program" = bin/raid ] || command -v rt >/dev/null || skip referee "the program isn't built, and the kit's command rt is not on the path"
made=$scratch/made.txt
"$program" make --seed "${RAID_SEED:-1}" --count "${RAID_MADE:-500}" >"$made" || fail "$program made no workload"
"$program" run <"$made" >"$scratch/report" || fail "$program gave no report of a made workload"
python3 tests/referee.py "$made" <"$scratch/report" >"$scratch/said" || fail "$(cat "$scratch/said")"
echo "referee: so is that of $program for a made workload:$(cut -d : -f 2- <"$scratch/said")"
