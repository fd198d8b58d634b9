"""The reports that the rules demand of worked networks (tests/reports.txt)."""
import os
import re

with open(os.path.join(os.path.dirname(os.path.abspath(__file__)), "reports.txt"), encoding="utf-8") as it:
    REPORTS = dict(re.findall(r"^\[(\w+)\]\n((?:.+\n)+)", it.read(), re.M))
