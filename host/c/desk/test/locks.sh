# Two runs on one store. The first is held up before its rename (stops.h says how), and pipes tell when it is there, so that
# nothing depends on time; the minute is there only so that a broken run ends.

mkfifo held go told
gives 0 new shared 3

hold_up() { # PROGRAM WORDS.., with its input on 3: a run that goes on with the lock until it is released
    DESK_HOLD=rename "$@" <&3 >held.out 2>held.err &
    check "$* is held up" timeout 60 cat held
}

hold() { # WORDS.., with the text on 3
    hold_up "$stops" "$@"
}

release() {
    check "the first run waits to be released" timeout 60 sh -c ': >go'
}

# A second run that changes the store is refused at once; those that look go on and see the old store.
hold add shared 305 $keys 3<blue
note shared
for words in "add shared 306 $keys" "import-xts shared 306 $keys --xts-key disk32.key --unit 7" "revise shared 305 1 $keys" \
    "remove shared 305" "rekey shared $keys" "begin shared --key new.key --seen $(fingerprint_of shared)"; do
    gives 103 $words <dry
    says "shared: in use by another run"
done
counts shared "used 0 free 3 clear 0 old 0 new 0"
kept shared
gives 0 new unshared 1
release
wait
check "the first run is done" [ "$(cat held.out)" = "revision 1" ]
holds shared blue305 free free

# A run with --wait says that it waits, and works on what the first has left.
hold revise shared 305 1 $keys 3<dry
"$desk" add shared 306 --wait $keys <dry >waited 2>told &
check "the second run waits" [ "$(timeout 60 head -n 1 told)" = "desk: shared: waiting for another run to end" ]
release
wait
check "the second run is done" [ "$(cat waited)" = "revision 1" ]
holds shared dry305 dry306 free

# Two runs that make the same store: the one that waited finds it there.
hold new made 1 3</dev/null
gives 103 new made 2
"$desk" new made 2 --wait >waited 2>told &
second=$!
check "the second run waits" [ "$(timeout 60 head -n 1 told)" = "desk: made: waiting for another run to end" ]
release
wait "$second"
check "the second run finds the store" [ $? -eq 106 ]
wait
holds made free

# A job server over the same file library: the desk is refused while it has the lock, and it waits for the desk.
check "the library's calls answer as its header says" sh -c 'mkdir calls && cd calls && "$1" >../calls.out' sh "$file_calls"
gives 0 new served 2
hold_up "$server" served new.key 305 "$(cat hold)" 3</dev/null
gives 103 add served 306 $keys <dry
counts served "used 0 free 2 clear 0 old 0 new 0"
release
wait
check "the server has answered" [ "$(cat held.out)" = "added 305 at revision 1" ]
record hold305new 305 1 2 hold new.key
holds served hold305new free
hold add served 306 $keys 3<dry
"$server" served new.key 307 "$(cat hold)" >waited 2>told.err &
release
wait
check "the server waited, and found no free slot" [ "$(cat told.err)" = "server: refused with 10" ]
holds served hold305new dry306
ends_with 1 "$server" served new.key 305 "$(cat hold)"
holds served hold305new dry306
