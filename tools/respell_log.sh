#!/bin/sh
# The kit has a library named log: the project's crate is line_log. Once, at the top of the repository, after respell.py.
set -eu
git mv crates/log crates/line_log
grep -rlE 'Rattle\.log\.|log::' crates --include=*.rt --include=*.antt --include=*.edit |
    xargs sed -i -E 's/Rattle\.log\./Rattle.line_log./g; s/(^|[^_a-zA-Z])log::/\1line_log::/g'
sed -i -E 's/^log:/line_log:/; s/^(.*:.*) log( |$)/\1 line_log\2/' crates.txt
