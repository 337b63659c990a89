# From one key to the next: begin, what it refuses, and whole cycles from a to b to c, cut off and repeated at every point.

printf '%048d' 1 >a.key
printf '%064d' 2 >b.key
printf '%048d' 3 >c.key
printf '%064d' 4 >wrong.key

# The sheets of these texts at every key and mark that they pass through, and the stores, by key and mark: a2 is under a, marked new key.
stage() { # KEY MARK
    record s305 305 1 "$2" blue "$1.key"
    record s306 306 7 "$2" longest "$1.key"
    record s307 307 4294967295 "$2" shortest "$1.key"
    cat s305 free s306 s307 >"$1$2"
}
for key in a b c; do for mark in 1 2; do stage "$key" "$mark"; done; done

from_to="--old-key a.key --new-key b.key"

# The same cycle in one go, each text and revision read on the way; the server in between adds under both keys and revises.
reads_well() { # STORE KEYS..
    file=$1
    shift
    for pair in 305:blue 306:longest 307:shortest; do
        gives 0 read "$file" "${pair%:*}" "$@"
        check "sheet ${pair%:*} reads well" cmp -s out "${pair#*:}"
    done
}
cp a2 cycle
gives 0 begin cycle --key a.key --seen "$(fingerprint_of cycle)"
prints "begun 3 free 1"
says "cycle.desk-before is the store as it was"
holds cycle a1
holds cycle.desk-before a2
reads_well cycle $from_to
reads_well cycle --key a.key
reads_well cycle.desk-before --key a.key
counts cycle "used 3 free 1 clear 0 old 3 new 0"
gives 0 rekey cycle $from_to
prints "copy 1 converted 3 already 0 free 1 damaged 0"
holds cycle b2
holds cycle.desk-before a1
reads_well cycle --key b.key
gives 0 begin cycle --seen="$(fingerprint_of cycle | tr a-f A-F)" --key=b.key
holds cycle b1
holds cycle.desk-before b2
gives 0 rekey cycle --old-key b.key --new-key c.key
holds cycle c2
holds cycle.desk-before b1
reads_well cycle --key c.key

# Mode, owner and group of the copy are the store's.
chmod 640 cycle
gives 0 begin cycle --key c.key --seen "$(fingerprint_of cycle)"
check "the copy has the store's mode, owner and group" [ "$(access_of cycle.desk-before)" = "$(access_of cycle)" ]

# Behind a link the copy is beside the file.
cp a2 elsewhere/real
ln -s elsewhere/real turned
gives 0 begin turned --key a.key --seen "$(fingerprint_of turned)"
holds elsewhere/real a1
holds elsewhere/real.desk-before a2
check "no copy is made beside the link" [ ! -e turned.desk-before ]

# 107: another store than was seen, whatever else is the matter with it. Nothing is touched.
refuses_to_begin() { # STATUS STORE WORDS..
    wanted=$1
    shift
    note "$1"
    gives "$wanted" begin "$@"
    kept "$1"
    check "nothing is left beside $1" [ ! -e "$1.desk-new" ]
}
seen=$(fingerprint_of a2)
cp a2 other
gives 0 add other 400 --key a.key <blue
cp other with400
for file in with400 a1 b2 mixed unsound; do
    cp "$file" other
    refuses_to_begin 107 other --key a.key --seen "$seen"
    says "other: not the store that was seen"
    check "nothing is answered" [ ! -s out ]
    check "no copy is made" [ ! -e other.desk-before ]
done

# 108: a sheet that is not marked new key. 100: a fault. 1 and 4 come first.
for file in a1 mixed hold305; do
    cp "$file" other
    refuses_to_begin 108 other --key a.key --seen "$(fingerprint_of other)"
done
says "other: of 1 sheets 1 are in clear and 0 marked old key: rekey first"
cat a2 unsound >other
refuses_to_begin 100 other --key a.key --seen "$(fingerprint_of other)"
prints "fault at 4"
printf '%049d' 5 >long.key
refuses_to_begin 1 other --key long.key --seen "$seen"
says "long.key: refused with 1: "
says "it has 49 bytes"
head -c 2113 a2 >other
refuses_to_begin 4 other --key a.key --seen "$(fingerprint_of other)"
says "other: refused with 4: "
check "no copy is made by what is refused" [ ! -e other.desk-before ]

# Where there is no sheet there is nothing to begin, and no file is touched.
cat free free >other
refuses_to_begin 0 other --key a.key --seen "$(fingerprint_of other)"
prints "begun 0 free 2"
check "no copy is made of a store without a sheet" [ ! -e other.desk-before ]
gives 0 new none.store 0
refuses_to_begin 0 none.store --key a.key --seen "$(fingerprint_of none.store)"
refuses_to_begin 1 none.store --key long.key --seen "$(fingerprint_of none.store)"

# A wrong key: the copy is the store as it was; and rekey with the same wrong key undoes begin, byte for byte.
cp a2 mistaken
gives 0 begin mistaken --key wrong.key --seen "$seen"
holds mistaken.desk-before a2
gives 0 rekey mistaken --key wrong.key
holds mistaken a2
cp a2 mistaken
gives 0 begin mistaken --key a.key --seen "$seen"
gives 0 rekey mistaken --old-key wrong.key --new-key b.key
check "the wrong old key made other bytes" sh -c '! cmp -s mistaken b2'
holds mistaken.desk-before a1
gives 0 rekey mistaken $from_to
prints "copy 1 converted 0 already 3 free 1 damaged 0"
holds mistaken.desk-before a1
mv mistaken.desk-before mistaken
gives 0 rekey mistaken $from_to
holds mistaken b2

# Rekeying where nothing was begun: nothing is done, and it is said.
cp a2 trap
note trap
gives 0 rekey trap $from_to
prints "copy 1 converted 0 already 3 free 1 damaged 0"
found_already 3
kept trap
check "no copy is made where nothing is done" [ ! -e trap.desk-before ]

# One change, cut off at each point. Up to the last rename the old store stands, as a file; the copy is what it was before, or the old
# store; and the same command does its work. After it the new store stands, the copy is the old store, and the command given again gets the
# status, and changes neither.
copied_points="copy-flush copy-rename copy-renamed flush rename"
before_is() { # STORE NAME: the copy has these bytes; with none there is no copy
    if [ "$2" = none ]; then check "$1 has no copy" [ ! -e "$1.desk-before" ]; else holds "$1.desk-before" "$2"; fi
}
from_stage() { # STORE OLD COPY: the store and its copy as a changeover has them
    rm -f "$1" "$1.desk-before" "$1.desk-new"
    cp "$2" "$1"
    [ "$3" = none ] || cp "$3" "$1.desk-before"
}
cut_change() { # OLD COPY NEW AGAIN COMMAND STORE WORDS..
    old=$1 copy=$2 new=$3 again=$4
    shift 4
    for point in $copied_points; do
        from_stage "$2" "$old" "$copy"
        note "$2"
        cut_off "$point" "$@"
        kept "$2"
        case $point in copy-flush | copy-rename) before_is "$2" "$copy" ;; *) before_is "$2" "$old" ;; esac
        gives 0 "$@"
        holds "$2" "$new"
        before_is "$2" "$old"
        check "nothing else is left" [ ! -e "$2.desk-new" ]
    done
    from_stage "$2" "$old" "$copy"
    cut_off renamed "$@"
    holds "$2" "$new"
    before_is "$2" "$old"
    note "$2"
    gives "$again" "$@"
    kept "$2"
    before_is "$2" "$old"
}
cut_change a2 none a1 107 begin cut --key a.key --seen "$(fingerprint_of a2)"
cut_change a1 a2 b2 0 rekey cut $from_to
cut_change b2 a1 b1 107 begin cut --key b.key --seen "$(fingerprint_of b2)"
cut_change b1 b2 c2 0 rekey cut --old-key b.key --new-key c.key

# The cycle from a to b to c with a cut at every point of each of its four changes, each followed by the same command; and after each
# change every command given so far is repeated, as from a shell's history, and changes nothing.
history() { # NUMBER: the first so many commands of the cycle, again
    note cycle
    cp cycle.desk-before noted.before
    [ "$1" -lt 1 ] || gives 107 begin cycle --key a.key --seen "$(fingerprint_of a2)"
    [ "$1" -ne 2 ] || gives 0 rekey cycle $from_to
    [ "$1" -lt 3 ] || gives 107 begin cycle --key b.key --seen "$(fingerprint_of b2)"
    [ "$1" -lt 4 ] || gives 0 rekey cycle $from_to
    [ "$1" -lt 4 ] || gives 0 rekey cycle --old-key b.key --new-key c.key
    kept cycle
    check "the copy is kept too" cmp -s noted.before cycle.desk-before
}
change_of_cycle() { # POINT NUMBER NEW COMMAND STORE WORDS..
    point=$1 number=$2 new=$3
    shift 3
    cut_off "$point" "$@"
    case $point in renamed) ;; *) gives 0 "$@" ;; esac
    holds cycle "$new"
    history "$number"
}
for point in $copied_points renamed; do
    from_stage cycle a2 none
    change_of_cycle "$point" 1 a1 begin cycle --key a.key --seen "$(fingerprint_of a2)"
    change_of_cycle "$point" 2 b2 rekey cycle $from_to
    change_of_cycle "$point" 3 b1 begin cycle --key b.key --seen "$(fingerprint_of b2)"
    change_of_cycle "$point" 4 c2 rekey cycle --old-key b.key --new-key c.key
    holds cycle.desk-before b1
    reads_well cycle --key c.key
done

# One that is late: a rekeying from a to b that is given again after b was begun on would store other bytes, and there the copy helps.
cp b1 late
gives 0 rekey late $from_to
check "it made other bytes" sh -c '! cmp -s late b2'
holds late.desk-before b1

# Sheets that are added and revised while both keys are in use come under the new one, and stay so.
cp a1 between
gives 0 add between 400 $from_to <dry
gives 0 revise between 305 1 $from_to <dry
gives 0 rekey between $from_to
found_already 2
prints "copy 1 converted 2 already 2 free 0 damaged 0"
for sheet in 305 400; do
    gives 0 read between "$sheet" --key b.key
    check "sheet $sheet reads well" cmp -s out dry
done
