#!/usr/bin/env bash
# For the tests that count cases of their own: a folder for their files, which goes at the end, and the counts.
# shellcheck disable=SC2034 # the tests count in them
folder=$(mktemp -d) || exit 1
trap 'rm -rf "$folder"' EXIT
passed=0
failed=0
