# Every refusal that desk can meet: its number, its meaning, and the file left alone.

gives 0 new refusing 2
gives 0 add refusing 305 $keys <blue
gives 0 revise refusing 305 1 $keys <dry

# 1: keys of every other length, also ones longer than any key. Either key is tested.
for length in 0 16 47 49 63 65 4096; do
    : >wrong.key
    [ "$length" = 0 ] || bytes "$length" >wrong.key
    refuses 1 add refusing 306 --old-key wrong.key --new-key new.key <blue
    refuses 1 read refusing 305 --old-key old.key --new-key wrong.key
    refuses 1 revise refusing 305 2 --key wrong.key <blue
    refuses 1 rekey refusing --old-key old.key --new-key wrong.key
done
says "wrong.key: refused with 1: a key is not 48 or 64 bytes long"
says "; it has 65 bytes or more"

# Which file, and which length: either key, and the newline that an editor leaves.
{ cat old.key; echo; } >newline.key
refuses 1 read refusing 305 --old-key newline.key --new-key new.key
says "desk: newline.key: refused with 1: a key is not 48 or 64 bytes long"
says "; it has 49 bytes, the last a newline"
refuses 1 read refusing 305 --old-key old.key --new-key newline.key
says "desk: newline.key: refused with 1: a key is not 48 or 64 bytes long"
says "; it has 49 bytes, the last a newline"
bytes 63 >short.key
refuses 1 read refusing 305 --key short.key
says "desk: short.key: refused with 1: a key is not 48 or 64 bytes long"
says "; it has 63 bytes"

# 4: a byte too few, a byte too many, a record too many.
cat refusing free >whole3
for length in 1 2111 2113 6335; do
    dd if=whole3 of=ragged bs="$length" count=1 2>/dev/null
    for words in check list "read 305 $keys" "remove 305" "rekey $keys"; do
        set -- $words
        command=$1
        shift
        refuses 4 "$command" ragged "$@"
    done
    refuses 4 add ragged 306 $keys <blue
    refuses 4 revise ragged 305 2 $keys <blue
done
says "ragged: refused with 4: the store is not a whole number of records, or over 1,024; it has 6335 bytes, and a record has 2112"
dd if=/dev/zero of=long bs=2112 count=1025 2>/dev/null
for command in check list; do
    refuses 4 "$command" long
    prints "refused 4"
    says "; it has 2162689 bytes or more, and a record has 2112"
done
refuses 4 remove long 305
for slots in 1025 2033602 4294967295; do
    gives 4 new none "$slots"
    prints "refused 4"
    says "none: refused with 4: "
    says "; $slots slots were asked for"
    check "no store is made" [ ! -e none ]
done

# 5
refuses 5 add refusing 0 $keys <blue
refuses 5 read refusing 0 $keys
refuses 5 revise refusing 0 2 $keys <blue
refuses 5 remove refusing 0
says "refused with 5: sheet number 0 was asked for"

# 6: texts one byte short, one byte long, empty, and far too long.
for length in 1 15 2097 100000; do
    bytes "$length" >wrong
    refuses 6 add refusing 306 $keys <wrong
    refuses 6 revise refusing 305 2 $keys <wrong
done
says "standard input: refused with 6: the text is below 16 or above 2,096 bytes; it has 2097 bytes or more"
bytes 15 >wrong
refuses 6 add refusing 306 $keys <wrong
says "; it has 15 bytes"
refuses 6 add refusing 306 $keys </dev/null
says "; it has 0 bytes"

# 7
refuses 7 read refusing 306 $keys
refuses 7 revise refusing 306 1 $keys <blue
refuses 7 remove refusing 306
says "desk: refusing: refused with 7: no slot has the sheet number"

# 8: older, newer, and equal to the stored revision only in its low half; then, where it has both halves, only in either.
for seen in 0 1 3 65538 4294967295; do refuses 8 revise refusing 305 "$seen" $keys <blue; done
record both 305 65538 2 blue new.key
for seen in 2 65536 65537 131074 131073; do refuses 8 revise both 305 "$seen" $keys <blue; done
says "refused with 8: the revision named is not the stored one"

# 9: the last revision but one can be revised, the last cannot.
record last 305 4294967294 1 blue old.key
cat last free >lasting
gives 0 revise lasting 305 4294967294 $keys <dry
prints "revision 4294967295"
refuses 9 revise lasting 305 4294967295 $keys <dry
says "refused with 9: the stored revision is 4,294,967,295, the last"

# 10 and 11. In a full store a sheet that is there is refused with 11.
gives 0 add lasting 306 $keys <blue
refuses 10 add lasting 307 $keys <blue
says "refused with 10: no slot is free"
refuses 11 add lasting 306 $keys <blue
says "refused with 11: the sheet number is already in a slot"
gives 0 new empty.full 0
refuses 10 add empty.full 307 $keys <blue

# 12: a revision of 0 is not as tabled. The slot can be removed all the same, and used again.
record unsound 305 0 0 hold
cat unsound free >spoilt
refuses 12 read spoilt 305 $keys
refuses 12 revise spoilt 305 0 $keys <blue
says "refused with 12: the slot found is unsound"
refuses 11 add spoilt 305 $keys <blue
gives 0 remove spoilt 305
holds spoilt free free

# The first that applies, in 01's order.
cp ragged both
refuses 1 add both 0 --key wrong.key <wrong
refuses 4 add both 0 $keys <wrong
refuses 5 add refusing 0 $keys <wrong
