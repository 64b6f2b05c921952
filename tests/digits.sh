#!/usr/bin/env bash
# The number of places stands once in the definitions and once in the code (paper 02, S-9): no other line of proofs, definitions and code names
# the places of an id, or of all ids, of either edition. Comments do not count, nor do 2 ^ 32 and `value_bits`, which are of the width of a word.
#   tests/digits.sh    in the root of the repository; prints the lines that name them, and ends with 0 if they are these two
lines=$(grep -rn --include=*.antt --include=*.rt "" crates/*/proofs crates/*/specs crates/*/src |
    sed -E 's/(--|\/\/).*//; s/2 \^ 32|value_bits = 32//g' | grep -E ':[0-9]+:(|.*[^0-9A-Za-z_.])(32|128|2048|8192)($|[^0-9A-Za-z_])')
echo "$lines"
[ "$(cut -d : -f 1 <<<"$lines")" = crates/definitions/specs/Sizes.antt$'\n'crates/definitions/src/lib.rt ] &&
    echo "the number of places stands once in the definitions and once in the code"
