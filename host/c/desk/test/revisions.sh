# Revisions past 65,535: list, read, revise, begin and rekey across it, and with ten digits.

# At each revision the sheet is listed, read, revised to the next and, marked old key by begin, rekeyed.
at_revision() { # REVISION
    record before "305" "$1" 1 blue old.key
    cat before free >past
    gives 0 list past
    prints "0 305 $1 1 25
used 1 free 1 clear 0 old 1 new 0"
    gives 0 read past 305 $keys
    check "the text at revision $1 is read" cmp -s out blue
    check "revision $1 is told whole" [ "$(cat err)" = "revision $1" ]
    cp past rekeyed
    gives 0 rekey rekeyed $keys
    record under_new 305 "$1" 2 blue new.key
    holds rekeyed under_new free
    rm rekeyed.desk-before
    gives 0 begin rekeyed --key new.key --seen "$(fingerprint_of rekeyed)"
    record begun 305 "$1" 1 blue new.key
    holds rekeyed begun free
    rm rekeyed.desk-before
}

for seen in 65534 65535 65536 65537 999999999 1000000000 4294967293 4294967294; do
    at_revision "$seen"
    gives 0 revise past 305 "$seen" $keys <dry
    prints "revision $((seen + 1))"
    record after 305 $((seen + 1)) 2 dry new.key
    holds past after free
    refuses 8 revise past 305 "$seen" $keys <dry
    gives 0 read past 305 $keys
    check "revision $((seen + 1)) is read" cmp -s out dry
    says "revision $((seen + 1))"
    gives 0 list past
    prints "0 305 $((seen + 1)) 2 37
used 1 free 1 clear 0 old 0 new 1"
done
at_revision 4294967295
refuses 9 revise past 305 4294967295 $keys <dry

# One sheet from 65,534 on, without a pause.
record row 305 65534 0 hold
cp row rows
for seen in 65534 65535 65536; do
    gives 0 revise rows 305 "$seen" $keys <blue
    prints "revision $((seen + 1))"
done
record row 305 65537 2 blue new.key
holds rows row

# A number of more digits than a revision has is no number.
gives 102 revise past 305 4294967296 $keys <dry
