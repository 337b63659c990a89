# A run that is cut off, at each of its three points, and then made again. stops.h says where the points are.

# The run ends at the point; it is the build for tests that has one.
cut_off() { # POINT COMMAND WORDS..
    point=$1
    shift
    DESK_STOP=$point "$stops" "$@" >out 2>err
    got=$?
    check "desk $* ends at $point (it ended with $got: $(cat err))" [ "$got" -eq 77 ]
    check "a run cut off at $point answers nothing" [ ! -s out ]
}

# Before the rename the old store stands, byte for byte and as a file, and the same command does its work. After it the new
# store stands, and the same command gets the status of a call made again.
cut_and_retry() { # BEFORE AFTER TEXT AGAIN COMMAND STORE WORDS..
    before=$1 after=$2 text=$3 again=$4
    shift 4
    for point in flush rename; do
        cp "$before" "$2"
        note "$2"
        cut_off "$point" "$@" <"$text"
        kept "$2"
        check "what was written beside is left by a run cut off at $point" [ -e "$2.desk-new" ]
        gives 0 "$@" <"$text"
        holds "$2" "$after"
        check "it is gone after the retry" [ ! -e "$2.desk-new" ]
    done
    cp "$before" "$2"
    cut_off renamed "$@" <"$text"
    holds "$2" "$after"
    check "nothing is left by a run cut off after the rename" [ ! -e "$2.desk-new" ]
    gives "$again" "$@" <"$text"
    holds "$2" "$after"
}

cat blue305 free >had
cat blue305 dry306 >has
cut_and_retry had has dry 11 add cut 306 $keys
cut_and_retry had has dry.unit 11 import-xts cut 306 $keys --xts-key disk32.key --unit 7
cat dry305 free >has
cut_and_retry had has dry 8 revise cut 305 1 $keys
says "refused with 8: "
cat free free >has
cut_and_retry had has /dev/null 7 remove cut 305
cat to1 to2 free new4 to5 >has
cut_and_retry mixed has /dev/null 0 rekey cut $keys
prints "copy 1 converted 0 already 4 free 1 damaged 0"

# A new store: before the rename there is none.
for point in flush rename; do
    rm -f cut
    cut_off "$point" new cut 2
    check "there is no store yet" [ ! -e cut ]
    gives 0 new cut 2
    holds cut free free
done
rm cut
cut_off renamed new cut 2
holds cut free free
gives 106 new cut 2

# A longer file that was left behind is no part of the next store.
bytes 100000 >cut.desk-new
gives 0 add cut 306 $keys <dry
holds cut dry306 free

# The program that is installed has no such points.
export DESK_STOP=flush
gives 0 remove cut 306
unset DESK_STOP
holds cut free free
