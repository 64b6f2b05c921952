#!/usr/bin/env bash
# Emptying a queue makes no buffer (paper 02, S-3). That the tables which are lent stand is proved; this looks for tables that are not lent:
# no function of `settings`, nor one that it stands on, has an array of its own, as a local or in a struct, so there is none to fill or to copy.
#   tests/emptying.sh    in the root of the repository; needs rt
# In the code of a function, as `rt check --generated` writes it, every type that is an array is 'ty_array ..', and a lent one stands behind
# 'ty_ref ..' or 'deref'. The struct of the tables is a name there. One function below makes such a struct, `Tables::filled` of crates/tables: it is
# left out, and no other function may name the struct, so that none calls it.
passed=0 failed=0
folder=$(mktemp -d)
trap 'rm -rf "$folder"' EXIT

# the bytes of a word, as a pattern of how the code lists them
spelled() {
    local i
    for ((i = 0; i < ${#1}; i++)); do [ $i = 0 ] || printf ' [(]'; printf 'List[.]◌∷◌ %d' "'${1:i:1}"; done
}
tables=$(spelled tables::Tables)

# arrays CRATE..: sets 'all' and 'lent', how often the code of these crates names an array, and one that is lent, 'named', how often the struct of the
# tables, and 'functions' and 'written', how many functions they have, and of how many there is the code
arrays() {
    local crate start left_out
    functions=0 written=0
    for crate in "$@"; do
        left_out=
        [ "$crate" != tables ] || left_out=--start=filled
        mapfile -t start < <(grep -hoE '^ *(pub )?fn [a-z0-9_]+' "crates/$crate"/src/*.rt | sed 's/.*fn //; s/^/--start=/' | grep -vxF -e "$left_out")
        functions=$((functions + ${#start[@]}))
        [ ${#start[@]} = 0 ] || (cd "crates/$crate" && rt check --generated "$folder/$crate" "${start[@]}") >"$folder/said" 2>&1 ||
            cat "$folder/said" >&2
        written=$((written + $(find "$folder/$crate" -path '*/Code/Mir.antt' 2>/dev/null | wc -l)))
    done
    (cd "$folder" && find "$@" -path '*/Code/Mir.antt' -exec cat {} + 2>/dev/null) | tr -s '[:space:]' ' ' >"$folder/code"
    all=$(grep -oE '[( ][^( ]*ty_array ' "$folder/code" | wc -l)
    lent=$(grep -oE '[( ][^( ]*(deref|ty_ref (\([^( ]*named [0-9]+\)|[^( ]*erased) [^( ]*(mut|imm)) \([^( ]*ty_array ' "$folder/code" | wc -l)
    named=$(grep -oE "$tables List" "$folder/code" | wc -l)
}

# check NAME TEST..
check() {
    if test "${@:2}"; then
        passed=$((passed + 1)); echo "passed: $1"
    else
        failed=$((failed + 1)); echo "failed: $1"
    fi
}

arrays $(sed -n 's/^settings: //p' crates.txt) settings
check "the code of $functions functions is looked through" "$written" = "$functions" -a "$functions" -gt 0
check "join, change and leave have tables lent to them" "$lent" -gt 0
check "and no array of their own" "$all" = "$lent" -a "$named" = 0
arrays streams
check "such an array can be seen: streams has one, for the system's words" "$all" -gt "$lent"
echo "$passed passed, $failed failed"
[ "$failed" = 0 ]
