#!/bin/sh
# Tries all must-fail edits, also those that the gate leaves out (their names end in .md), in a copy of the repository.
#     tests/edits.sh [CRATE ...]
# All crates are tried where none is named. It proves first what isn't proved yet, and ends with the status of `rt ci`, whose
# last line says how many edits and tests passed.
cd "$(dirname "$0")/.." || exit 1
copy=$(mktemp -d) || exit 1
trap 'rm -rf "$copy"' EXIT
tar --exclude=out --exclude=.git -cf - . | tar -xf - -C "$copy" || exit 1
cd "$copy" || exit 1
for edit in crates/*/must-fail/*.md; do
    [ "${edit##*/}" = README.md ] || mv "$edit" "${edit%.md}.edit"
done
rt ci "$@"
