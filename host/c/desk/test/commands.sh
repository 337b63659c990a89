# Every command where it does its work: what is printed, and every byte of the store afterwards.

gives 0 new store 3
prints "used 0 free 3 clear 0 old 0 new 0"
holds store free free free
counts store "used 0 free 3 clear 0 old 0 new 0"

record blue305 305 1 2 blue new.key
record dry306 306 1 2 dry new.key
gives 0 add store 305 $keys <blue
prints "revision 1"
holds store blue305 free free
gives 0 add store 306 --key new.key <dry
prints "revision 1"
holds store blue305 dry306 free

# A text is read as it was written, byte for byte, and its revision is told apart from it.
gives 0 read store 306 $keys
check "sheet 306 is read back" cmp -s out dry
check "only the revision is told" [ "$(cat err)" = "revision 1" ]

record dry305 305 2 2 dry new.key
gives 0 revise store 305 1 $keys <dry
prints "revision 2"
holds store dry305 dry306 free
gives 0 read store 305 $keys
check "sheet 305 is read back" cmp -s out dry
says "revision 2"

gives 0 list store
prints "0 305 2 2 37
1 306 1 2 37
used 2 free 1 clear 0 old 0 new 2"

gives 0 remove store 305
prints "removed"
holds store free dry306 free
record hold4294967295 4294967295 1 2 hold new.key
gives 0 add store 4294967295 $keys <hold
holds store hold4294967295 dry306 free

# Options before and between the words, a sheet number with zeros before it, and words after --.
gives 0 --old-key old.key read --new-key new.key store 00306
check "options stand anywhere" cmp -s out dry
gives 0 check -- store

# The shortest and the longest text.
bytes 16 >shortest
bytes 2096 >longest
for text in shortest longest; do
    gives 0 new "$text.store" 1
    gives 0 add "$text.store" 7 $keys <"$text"
    record only 7 1 2 "$text" new.key
    holds "$text.store" only
    gives 0 read "$text.store" 7 $keys
    check "the $text text is read back" cmp -s out "$text"
done

# A text that comes in pieces is one text.
gives 0 new pieces.store 1
mkfifo pieces
{ printf 'PRESS 4 '; sleep 1; printf 'HOLD 5AM'; } >pieces &
gives 0 add pieces.store 7 $keys <pieces
wait
record only 7 1 2 hold new.key
holds pieces.store only

# No slot, and as many as there may be.
gives 0 new empty.store 0
gives 0 list empty.store
prints "used 0 free 0 clear 0 old 0 new 0"
gives 0 new most.store 1024
gives 0 list most.store
prints "used 0 free 1024 clear 0 old 0 new 0"

# The example of 01, and a sheet under the old key.
record hold305 305 2 0 hold
cat hold305 free >example.store
gives 0 list example.store
prints "0 305 2 0 16
used 1 free 1 clear 1 old 0 new 0"
record blue306 306 7 1 blue old.key
cat hold305 blue306 >two.store
counts two.store "used 2 free 0 clear 1 old 1 new 0"
gives 0 read two.store 305 $keys
check "a sheet in clear is read" cmp -s out hold
gives 0 read two.store 306 $keys
check "a sheet under the old key is read" cmp -s out blue
says "revision 7"
