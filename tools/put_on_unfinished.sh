#!/bin/sh
# Puts the unfinished work of unfinished/ on the tree: the files that it adds, and its changes to the crates and pages that stand here.
# Run it at the top of a clone at commit a4242396de5e668c71c53218be6a0aa2396de802, with everything committed. It changes contracts and expected outputs that stand: docs/PORT.md lists them.
set -e
cd "$(dirname "$0")/.."
git apply --check unfinished/changes.patch
(cd unfinished/crates && find . -type f -name '*.txt') | while read -r file; do
    to="crates/${file#./}"
    to="${to%.txt}"
    mkdir -p "$(dirname "$to")"
    cp "unfinished/crates/$file" "$to"
done
git apply unfinished/changes.patch
