# Sheets under XTS-AES: import-xts and xts-block where they do their work, and each of their refusals.

printf '%032d' 1619 >disk32.key
printf '%064d' 9161 >disk64.key

# A sheet is stored as add stores its text, whatever the XTS key's length and the unit's number; the unit is kept.
for number in 0 255 4294967296 18446744073709551615; do
    for length in 32 64; do
        unit blue.unit "disk$length.key" "$number" blue
        cp blue.unit unit.before
        check "the unit is not the text" [ "$(cat blue.unit)" != "$(cat blue)" ]
        rm -f taken taken.desk-lock
        gives 0 new taken 2
        gives 0 import-xts taken 305 $keys --xts-key "disk$length.key" --unit "$number" <blue.unit
        prints "revision 1"
        holds taken blue305 free
        check "the unit is kept" cmp -s blue.unit unit.before
        check "no copy is made of the store" [ ! -e taken.desk-before ]
    done
done
gives 0 read taken 305 $keys
check "the sheet is read back" cmp -s out blue

# Given again it is refused, with the file left alone; with one key, and with zeros before the number.
import="--xts-key disk64.key --unit 18446744073709551615"
refuses 11 import-xts taken 305 $keys $import <blue.unit
unit dry.unit disk32.key 7 dry
gives 0 import-xts taken 306 --key new.key --xts-key=disk32.key --unit 007 <dry.unit
holds taken blue305 dry306
refuses 10 import-xts taken 307 $keys $import <blue.unit

# The shortest and the longest text, with the longest unit that is none.
bytes 2097 >longer
for text in shortest longest; do
    unit edge.unit disk32.key 9 "$text"
    rm -f edge edge.desk-lock
    gives 0 new edge 1
    gives 0 import-xts edge 7 $keys --xts-key disk32.key --unit 9 <edge.unit
    record only 7 1 2 "$text" new.key
    holds edge only
done

# A wrong number or key is not noticed: other bytes are stored.
gives 0 new other 1
gives 0 import-xts other 305 $keys --xts-key disk32.key --unit 8 <dry.unit
gives 0 read other 305 $keys
check "another number gives other bytes" [ "$(cat out | tr -d '\000')" != "$(cat dry | tr -d '\000')" ]

# The refusals, in their order: what is wrong is put right one by one.
gives 0 new order 1
gives 0 add order 305 $keys <blue
bytes 48 >eme2.key
bytes 15 >short
head -c 2111 order >ragged
refuses 15 import-xts ragged 0 --key disk32.key --xts-key eme2.key --unit 7 <short
says "eme2.key: refused with 15: an XTS key is not 32 or 64 bytes long; it has 48 bytes"
refuses 16 import-xts ragged 0 --key disk32.key --xts-key disk32.key --unit 7 <short
says "standard input: refused with 16: a unit is below 16 or above 65,536 bytes; it has 15 bytes"
refuses 1 import-xts ragged 0 --key disk32.key --xts-key disk32.key --unit 7 <longer
says "disk32.key: refused with 1: a key is not 48 or 64 bytes long"
refuses 4 import-xts ragged 0 $keys --xts-key disk32.key --unit 7 <longer
refuses 5 import-xts order 0 $keys --xts-key disk32.key --unit 7 <longer
refuses 6 import-xts order 305 $keys --xts-key disk32.key --unit 7 <longer
says "standard input: refused with 6: the text is below 16 or above 2,096 bytes; it has 2097 bytes"
refuses 11 import-xts order 305 $keys --xts-key disk32.key --unit 7 <dry.unit
refuses 10 import-xts order 306 $keys --xts-key disk32.key --unit 7 <dry.unit

# 15: every other length, and the newline that an editor leaves. 16: no byte, and more than there may be.
for length in 0 31 33 48 63 65 4096; do
    : >wrong.key
    [ "$length" = 0 ] || bytes "$length" >wrong.key
    refuses 15 import-xts order 306 $keys --xts-key wrong.key --unit 7 <dry.unit
done
says "wrong.key: refused with 15: an XTS key is not 32 or 64 bytes long; it has 65 bytes or more"
{ cat disk32.key; echo; } >newline.key
refuses 15 import-xts order 306 $keys --xts-key newline.key --unit 7 <dry.unit
says "; it has 33 bytes, the last a newline"
refuses 16 import-xts order 306 $keys --xts-key disk32.key --unit 7 </dev/null
bytes 65536 >largest
{ cat largest; printf x; } >larger
refuses 16 import-xts order 306 $keys --xts-key disk32.key --unit 7 <larger
says "; it has 65537 bytes or more"
refuses 6 import-xts order 306 $keys --xts-key disk32.key --unit 7 <largest

# Block by block: 37 bytes have one block that can be read alone, and 2,096 bytes all 131.
block() { # STATUS UNIT KEY NUMBER BLOCK
    file=$2
    gives "$1" xts-block --xts-key "$3" --unit "$4" --block "$5" <"$file"
}
block 0 dry.unit disk32.key 7 0
head -c 16 dry >wanted
check "block 0 is the text's" cmp -s out wanted
check "nothing is said" [ ! -s err ]
for number in 1 2 3 18446744073709551615; do
    block 17 dry.unit disk32.key 7 "$number"
    says "standard input: refused with 17: the block cannot be read alone"
    says "; it has 37 bytes, and block $number was asked for"
    check "nothing is printed" [ ! -s out ]
done
seq 1000 | head -c 2096 >long
unit long.unit disk64.key 4294967296 long
for number in 0 1 2 64 127 128 129 130; do
    block 0 long.unit disk64.key 4294967296 "$number"
    dd if=long of=wanted bs=16 skip="$number" count=1 2>/dev/null
    check "block $number is the text's" cmp -s out wanted
done
block 17 long.unit disk64.key 4294967296 131
block 0 largest disk64.key 0 4095
block 17 largest disk64.key 0 4096
block 15 dry.unit eme2.key 7 9
says "eme2.key: refused with 15: "
block 16 short disk32.key 7 9
says "standard input: refused with 16: "
block 16 larger disk32.key 7 0
gives 0 xts-block --xts-key disk32.key --unit 7 --block 0 --raw <dry.unit
"$desk" xts-block --xts-key disk32.key --unit 7 --block 0 <dry.unit >/dev/full 2>err
check "xts-block to a full device ends with 104" [ $? -eq 104 ]
gives 104 xts-block --xts-key none.key --unit 7 --block 0 <dry.unit
says "none.key: "
