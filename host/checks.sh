# Counting checks, for the test scripts of the host side: a script sources this file, makes its checks, and ends in all_passed.
# The first check that fails is named on standard error and ends the script with status 1.
passed=0

check() { # WHAT WORDS..: what has to hold, and the command that succeeds if it does
    what=$1
    shift
    "$@" || { echo "${0##*/}: FAILED: $what" >&2; exit 1; }
    passed=$((passed + 1))
}

# Runs a program, which must end with the status. What it printed is in out and err.
ends_with() { # STATUS PROGRAM WORDS..
    wanted=$1
    shift
    "$@" >out 2>err
    got=$?
    check "$* ends with $wanted (it ended with $got: $(cat err))" [ "$got" -eq "$wanted" ]
}

all_passed() { # NAME
    echo "$1: $passed checks passed"
}
