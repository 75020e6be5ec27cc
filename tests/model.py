"""Puts the reference model on the path, so that a script that imports this first can import its modules.

The model lies at RAID_ORACLE, by default ../shared/oracle beside the repository.
"""
import os
import sys

HERE = os.path.dirname(os.path.abspath(__file__))
ORACLE = os.environ.get("RAID_ORACLE", os.path.join(HERE, "..", "..", "shared", "oracle"))
sys.path.insert(0, ORACLE)
