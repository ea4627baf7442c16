#!/bin/sh
# What is undecided without options, with greater budgets; and a bound for the index that is written out.
set -eu
here=$(dirname "$0")

# try SCRIPT WORDS..: the words, and the first answer.
try() {
    script=$1
    shift
    printf '%-32s %s\n' "$*" "$("$semi" "$@" <"$here/$script.semi" | head -n 1)"
}

semi=$1
try large_group --rows 10000
try large_group --rows 20000
try large_group --rows 20000 --classes 20000
try partial_permutations_of_seven --elements 130921
try partial_permutations_of_seven --elements 130922 --classes 200000
