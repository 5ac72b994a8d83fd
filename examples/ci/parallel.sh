#!/bin/bash
# Checks the files below bin/, four at a time, with Debian's package parallel, and reads their reports together. Before
# the command the words `--sshlogin 8/build1,: --transferfile {} --cleanup` run it on the machine build1 too, eight jobs
# at a time, where cccheck's repository has to stand in the same folder. `2>&1` keeps what stderr says, so that a file
# without a report is missed; `|| true` leaves parallel to fail where a job was lost.
set -o pipefail
find bin -name '*.dll' | LC_ALL=C sort |
    parallel --jobs 4 --keep-order '/opt/cccheck/cccheck check {} 2>&1 || true' |
    /opt/cccheck/tools/report --read -
