#!/bin/bash
# Reads the reports of all tasks of array.sh. A task that never ran is missed, and a file that no task took is missed by
# the baseline.
/opt/cccheck/tools/report --baseline contracts.txt --read reports/{0..7}.txt
