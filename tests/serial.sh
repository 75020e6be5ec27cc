#!/bin/sh
# Compares reports with the reference model's, on the examples in the fixed order and on random workloads of the program: see serial.py.
# RAID_ORACLE names the folder of the model, RAID_SERIAL how many random workloads there are to be (200).
cd "$(dirname "$0")/.." || exit 1
. tests/common.inc
need_model serial oracle.py
make_scratch
build serial raid_world_table || exit 1
exec python3 tests/serial.py bin/raid crates/raid_world_table/out/raid_world_table "${RAID_SERIAL:-200}"
