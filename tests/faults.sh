#!/bin/sh
# Shows that the tests can fail: builds the second program with each fault of paper 01's list, with the plain remainder that S-1 of
# paper 02 does away with, with the full buckets that its S-4 does away with, with two wrong figures for S-14, with three faults against
# S-8, with three against S-6, with two against S-5 and with three against S-7, and runs the tests on it.
#   tests/faults.sh BUILD CASES HANDLES    in the root of the repository, after the build of tests/run; needs crates/fair/out/fair for the cases.
#                                          CASES and HANDLES are the folders of the edition's cases
# `compare`, the cases and the long run must catch 1 to 6, 9 and 9b, `pairs` the first four (the others cannot be seen by pairs, see
# src/pairs.rs), `stretches` all of these but 5b, for which it is not run: whether it sees that hangs on how many places an id has, since an
# indifferent client's queue has to get full in one script. What a greedy client gets is wrong with 5 alone: the other faults take no token
# from a client that meets no 14. More than a client that switches has bought comes of 9 alone, a full bucket after a join and a change; with
# 9b, where a change that keeps the type empties the bucket, it is less. The wrong figures, 7 and 7b, are in no printout: of these tests
# `sure` and the cases alone see them, and `sure` by the picks alone too, which have to be fewer than such a figure. It sees 3 to 5b, 9 and 9b
# as well, since packets and levels are in the figure, but not by the picks: these are no fewer than those programs themselves are sure of.
# Who is drawn (1, 2 and 6) is not in the figure. 8 to 8c are of the program `fair`: the test `fair` sees them, and the sentences alone do
# too, each by another one. The three that are proved hold under 8, whose left shares go to the highest ids, and speak of no refusal, so not
# of 8c, an empty list that is refused; the words of the request on who gets what is left, and on 22, do.
# 10 to 10c are of handles: kept in 32 bits, refused above 32 bits, and wrapped beyond 64. In the edition of short handles 10 and 10b change
# nothing, and stretches, whose handles are long, and with them pairs of 10c, are left out. Pairs run one program twice, and see 10c alone,
# under which lines that are no call, and differ in the two texts, are taken for calls. The calls of a long run are no text, so it sees 10
# alone; its stretches are, and see 10b too.
# 11 and 11b are of the sheets: the operator's sentence without its target, and a tenant's sentence with its neighbour's id. `sheets` sees them where
# it reads the lines back, 11 in the operator's sheet and 11b in a tenant's, and so do the cases. No printout, no figure and no long run has them. Nor
# do the sheets of a pair: what is left out of both, or stands in both, is the same. A leak shows there, in what a tenant is told of its own slots
# and of others': of 1 to 9b the sheets of pairs see the first four, as `pairs` does.
# 12 to 12c are of the count sheets: what a change of type empties counted as sent, a 14 counted as a 15, and counts kept over a leave. `counts` sees
# them beside the second program's lines, and beside those that are counted anew from the faulty program's own printout, and so do the cases. No answer
# and no slot is another, and under 12 and 12c accepted is still sent plus emptied plus waiting, as it has to be; 12b is of counts that this sum leaves
# out. A leak shows in the count sheets too: of 1 to 9b those of pairs see the first four, in the chosen client's line or in what an indifferent client
# has gained.
# Prints a line for each; the printouts stay in BUILD/fault-N.
build=$1 edition=$2 handles=$3 long=yes passed=0 failed=0 millions=10 # of calls, of which the sixth shows 5b

[ "$(basename "$handles")" != 4294967295 ] || long=no # handles above 4294967295

# Prints what became of a fault.
judge() { # fault, test, what was found, what should be, the test's own words
    if [ "$3" = "$4" ]; then
        passed=$((passed + 1))
        printf '%s\n' "passed: fault $1 is $3 by $2: $5"
    else
        failed=$((failed + 1))
        printf '%s\n' "failed: fault $1 is $3 by $2, and should be $4: $5"
    fi
}

# Runs a test that ends with 0 if it found no difference, and with 1 if it found one.
try() { # fault, test, caught or not seen, the test's arguments
    fault=$1 test=$2 wanted=$3
    shift 3
    "$build/$test" "$planted" "$@" >"$folder/$test.txt"
    case $? in
    0) judge "$fault" "$test" "not seen" "$wanted" "$(tail -n 1 "$folder/$test.txt")" ;;
    1) judge "$fault" "$test" caught "$wanted" "$(head -n 1 "$folder/$test.txt")" ;;
    *) judge "$fault" "$test" "not tried" "$wanted" "the test itself failed" ;;
    esac
}

# The same for the cases, which say a line for each: of interest is the first that the planted program fails.
try_cases() { # fault
    "$build/cases" "$planted" crates/fair/out/fair tests/cases/*.case "$edition"/*.case "$handles"/*.case >"$folder/cases.txt"
    case "$? $(grep -m 1 "^failed: .* of slots is" "$folder/cases.txt")" in
    "0 ") judge "$1" "the cases" "not seen" caught "$(tail -n 1 "$folder/cases.txt")" ;;
    "1 failed: "*) judge "$1" "the cases" caught caught "$(sed -n "s/^failed: //p" "$folder/cases.txt" | head -n 1)" ;;
    *) judge "$1" "the cases" "not tried" caught "the test itself failed" ;;
    esac
}

# The same where what the test says first has to have these words in it. With `alone` for a last argument the second program is not asked.
try_words() { # fault, test, what to call it, caught or not seen, words, the test's arguments
    fault=$1 test=$2 name=$3 wanted=$4 words=$5
    shift 5
    "$build/$test" "$planted" "$@" >"$folder/words.txt"
    case "$? $(head -n 1 "$folder/words.txt")" in
    "0 "*) judge "$fault" "$name" "not seen" "$wanted" "$(tail -n 1 "$folder/words.txt")" ;;
    "1 "*"$words"*) judge "$fault" "$name" caught "$wanted" "$(head -n 1 "$folder/words.txt")" ;;
    *) judge "$fault" "$name" "not tried" "$wanted" "the test itself failed" ;;
    esac
}

# Builds a program of the second program's with a fault in it.
plant() { # fault, source, name
    folder=$build/fault-$1 planted=$build/fault-$1/$3
    rm -rf "$folder" && mkdir -p "$folder" && cp -r second/src "$folder/src" || exit 2
    patch -s -p1 -d "$folder" <"second/faults/$1.patch" || exit 2
    rustc -O --edition 2021 "$folder/src/$2.rs" -o "$planted" || exit 2
}

# The same for a long run of the faulty program, against one of the right one.
try_long() { # fault, caught or not seen
    rustc -O --edition 2021 "$folder/src/long.rs" -o "$folder/long" || exit 2
    "$folder/long" 1 $millions >"$folder/long.txt"
    if [ "$(cat "$build/long.txt" "$folder/long.txt" | wc -l)" != $((2 * millions)) ]; then found="not tried"
    elif cmp "$build/long.txt" "$folder/long.txt" >"$folder/cmp.txt"; then found="not seen"
    else found=caught; fi
    judge $1 "the long run" "$found" "$2" "$(sed 's/.*, //' "$folder/cmp.txt")"
}

"$build/long" 1 $millions >"$build/long.txt"
for fault in 1 2 3 4 5 5b 6 7 7b 9 9b; do
    plant $fault main slots
    in_printouts=caught scripts=2000 in_pairs=caught in_stretches=caught in_counts="not seen" in_figures=caught in_picks="not seen"
    in_spells="not seen"
    case $fault in 5* | 6 | 7* | 9*) in_pairs="not seen" ;; esac
    case $fault in 7*) in_stretches="not seen" ;; 5) in_counts=caught ;; 9) in_spells=caught ;; esac
    case $fault in 1 | 2 | 6) in_figures="not seen" ;; 7*) in_printouts="not seen" scripts=300 in_picks=caught ;; esac
    try_cases $fault
    try $fault compare "$in_printouts" 1 $scripts
    try $fault pairs "$in_pairs" 1 300
    try $fault switching "$in_spells" 1 300
    [ $fault = 5b ] || [ $long = no ] || try $fault stretches "$in_stretches" 1 1
    try $fault sure "$in_figures" 1 300
    try_words $fault sure "the picks alone" "$in_picks" fewer 1 100 alone
    try_words $fault sheets "the sheets of pairs" "$in_pairs" differ 1 100 alone
    try_words $fault counts "the count sheets of pairs" "$in_pairs" differ 1 100 alone
    case $fault in 7*) continue ;; esac # no long run asks for a figure
    rustc -O --edition 2021 "$folder/src/greedy.rs" -o "$folder/greedy" || exit 2
    try_long $fault caught
    if ! "$folder/greedy" 1 1 >"$folder/greedy.txt"; then found="not tried"
    elif tests/exact.sh <"$folder/greedy.txt" >"$folder/exact.txt"; then found="not seen"
    else found=caught; fi
    judge $fault "the count of a greedy client" "$found" "$in_counts" "$(cat "$folder/exact.txt")"
done
for fault in 10 10b 10c; do
    case $fault-$long in 10-no | 10b-no) continue ;; esac
    plant $fault main slots
    in_pairs="not seen" in_stretches=caught in_calls="not seen"
    case $fault in 10) in_calls=caught ;; 10c) in_pairs=caught in_stretches="not seen" ;; esac
    try_cases $fault
    try $fault compare caught 1 2000
    if [ $long = yes ]; then
        try $fault pairs "$in_pairs" 1 300
        try $fault stretches "$in_stretches" 1 1
    fi
    try_long $fault "$in_calls"
done
for fault in 8 8b 8c; do
    plant $fault fair_main fair
    case $fault in
    8) words="what is left does not go by rising id" ;;
    8b) words="the threshold is not used up" ;;
    8c) words="refused without a reason" ;;
    esac
    try $fault fair caught 1 300
    try_words $fault fair "the sentences alone" caught "$words" 1 300 alone
done
for fault in 11 11b; do
    plant $fault main slots
    case $fault in 11) words="the operator's sheet" ;; 11b) words="the sheet of tenant" ;; esac
    try_cases $fault
    try_words $fault sheets "the sheets read back" caught "$words" 1 100
    try_words $fault sheets "the sheets of pairs" "not seen" differ 1 100 alone
    try $fault compare "not seen" 1 100
    try $fault pairs "not seen" 1 100
    try $fault sure "not seen" 1 100
done
for fault in 12 12b 12c; do
    plant $fault main slots
    try_cases $fault
    try_words $fault counts "the count sheets" caught "not as in the second program" 1 100
    try_words $fault counts "the recount alone" caught "not as recounted" 1 100 alone
    try $fault compare "not seen" 1 100
    try $fault pairs "not seen" 1 100
    try $fault sheets "not seen" 1 100
done
echo "$passed passed, $failed failed"
[ "$failed" = 0 ]
