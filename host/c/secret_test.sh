#!/bin/sh
# secret_test.sh SECRET TABLES HEADER LIBRARY SHARED PROBE DIRECTORY: no table is read at a place that depends on a key or a text, and no branch
# depends on one. All are absolute paths; in the directory a folder is made for the run and removed again.
#
# The libraries are searched for substitution tables, and the calls are watched by valgrind's memcheck with keys and texts hidden. Both must find
# what they look for in the probe's library, which has the tables for the tests.
set -u
here=$(cd "$(dirname "$0")" && pwd) || exit 2
. "$here/../checks.sh"
secret=$1
tables=$2
header=$3
library=$4
shared=$5
probe=$6
work=$(mktemp -d "$7/secret-test.XXXXXX") || exit 2
trap 'rm -rf "$work"' EXIT
cd "$work" || exit 2

check "valgrind is here (Debian has it in the package valgrind)" command -v valgrind >valgrind

# ---- the tables
check "every form of a table is found in noise" "$tables" --try
for file in "$library" "$shared"; do
    "$tables" "$file" >found 2>&1
    status=$?
    check "no substitution table stands in a library ($(cat found))" [ "$status" = 0 ]
done
"$tables" "$probe" >found 2>&1
for table in SBOX INVSBOX; do check "$table is found in $probe ($(cat found))" grep -qF "$probe has $table at byte" found; done

# ---- every call that takes a key is made: the calls of the header with a length of a key among their parameters
LC_ALL=C awk '
    /^uint32_t lagunedo_[a-z0-9_]*\(/ { declaration = "" }
    { declaration = declaration $0 }
    /;$/ {
        if (declaration ~ /^uint32_t lagunedo_/ && declaration ~ /key_length/) { sub(/\(.*/, "", declaration); print substr(declaration, 10) }
        declaration = ""
    }' "$header" | sort -u >keyed
check "the header has calls that take a key" [ -s keyed ]
check "the program names the calls that it makes" "$secret" names >made
while read -r call; do check "$call takes a key and is made" grep -qx "$call" made; done <keyed

# ---- memcheck: a report makes the status 9
watched() { # WORD
    valgrind --quiet --error-exitcode=9 --error-limit=no --num-callers=1 --log-file=report "$secret" "$1" >out 2>err
    status=$?
}

# Where memcheck reports something, a line for each function.
reported() {
    sed -n 's/^==[0-9]*== *at 0x[0-9A-F]*: \(.*\) (in .*/\1/p' report | sort | uniq -c | awk '{ print "; " $1 " reports in " $2 }'
}

is_silent() { # WORD
    watched "$1"
    check "memcheck has nothing to say of secret $1, which ends with 0 (it ended with $status$(cat err)$(reported))" [ "$status" = 0 ]
    check "memcheck has no report of secret $1" [ ! -s report ]
}

# So that its silence says something.
is_reported() { # WORD WHAT
    watched "$1"
    check "memcheck reports secret $1 (it ended with $status: $(cat out err report))" [ "$status" = 9 ]
    check "memcheck reports of secret $1 what it is ($(cat report))" grep -qF "$2" report
}

is_silent calls
is_silent substitution
is_reported look-up 'Use of uninitialised value of size 8'
is_reported branch 'Conditional jump or move depends on uninitialised value(s)'
all_passed secret
