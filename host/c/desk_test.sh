#!/bin/sh
# desk_test.sh DESK DESK-STOPS MAKE-RECORD MAKE-UNIT SHA256 FILE-CALLS SERVER-STOPS DIRECTORY: the program desk as an operator meets it, and
# the file library below it. The programs and the directory, in which a folder is made for the run and removed again, are absolute paths.
# Each part of the test is a file in desk/test.
set -u
here=$(cd "$(dirname "$0")" && pwd) || exit 2
. "$here/../checks.sh"
desk=$1
stops=$2
make_record=$3
make_unit=$4
sha256=$5
file_calls=$6
server=$7
work=$(mktemp -d "$8/desk-test.XXXXXX") || exit 2
trap 'rm -rf "$work"' EXIT
cd "$work" || exit 2
LC_ALL=C
export LC_ALL

# Two keys, of both lengths, and texts. Any bytes will do.
printf '%048d' 4711 >old.key
printf '%064d' 1147 >new.key
keys="--old-key old.key --new-key new.key"
printf 'PRESS 4 HOLD 5AM' >hold
printf 'PRESS 2 BLUE, DRY 20 MIN\n' >blue
printf 'PRESS 2 BLUE, DRY 35 MIN\nSTACK LOW\n\000\377' >dry

bytes() { # NUMBER: as many bytes
    dd if=/dev/zero bs="$1" count=1 2>/dev/null | tr '\000' '#'
}

record() { # FILE SHEET REVISION MARK TEXT [KEY]: a file with one record
    file=$1 text=$5
    set -- "$2" "$3" "$4" ${6+"$6"}
    check "a record of sheet $1" "$make_record" "$@" <"$text" >"$file"
}

unit() { # FILE KEY NUMBER TEXT: a file with one unit
    check "unit $3 of $4" "$make_unit" "$2" "$3" <"$4" >"$1"
}

record free 0 0 0 /dev/null

gives() { # STATUS WORDS..: desk ends with the status
    wanted=$1
    shift
    ends_with "$wanted" "$desk" "$@"
}

prints() { # TEXT: the last run printed these lines and no more
    printf '%s\n' "$1" >lines
    check "desk prints '$1' (it printed '$(cat out)')" cmp -s lines out
}

fingerprint_of() { # FILE
    "$sha256" <"$1"
}

counts() { # STORE COUNTS: check prints the counts and the store's fingerprint
    gives 0 check "$1"
    prints "$2
fingerprint $(fingerprint_of "$1")"
}

says() { # TEXT: the last run said so on standard error
    check "desk says '$1' (it said '$(cat err)')" grep -qF -- "$1" err
}

holds() { # STORE FILES..: the store has the bytes of these files and no others
    file=$1
    shift
    cat "$@" >whole
    check "$file holds $*" cmp -s whole "$file"
}

# The file itself (its number, mode, owner, size and time, which is put long back) and its bytes, to be compared later.
note() { # FILE
    touch -t 200001010000 "$1"
    ls -lni "$1" >noted.file
    cp "$1" noted.bytes
}

kept() { # FILE
    ls -lni "$1" >kept.file
    check "$1 is the file that it was, and was not written" cmp -s noted.file kept.file
    check "$1 has the bytes that it had" cmp -s noted.bytes "$1"
}

# Runs desk on the store, which must refuse with the number, say what it means, and leave the file and nothing beside it.
refuses() { # NUMBER COMMAND STORE WORDS..
    note "$3"
    gives "$@"
    says "refused with $1: "
    kept "$3"
    check "nothing is left beside $3" [ ! -e "$3.desk-new" ]
    check "no copy is made of $3" [ ! -e "$3.desk-before" ]
}

for part in commands revisions earlier refusals takeover statuses usage files fingerprint rekey stops changeover locks terminal; do . "$here/desk/test/$part.sh"; done
all_passed desk
