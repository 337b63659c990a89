# The statuses from 100 to 106, but for those that rekey.sh and locks.sh meet. changeover.sh meets 107 and 108.

# 100: each kind of fault. Nothing else is printed, whatever good slots stand before it.
record two305 305 3 2 blue new.key
record nothing 0 1 0 /dev/null
for files in "unsound" "nothing" "hold305 blue306 two305" "free hold305 nothing"; do
    set -- $files
    cat "$@" >faulty
    for command in check list; do
        note faulty
        gives 100 "$command" faulty
        prints "fault at $(($# - 1))"
        says "slot $(($# - 1)) is unsound or repeats a lower slot's sheet number"
        kept faulty
    done
done

# 102: each way to be misunderstood. No file is made or touched.
note store
wrong() { # WORDS..
    gives 102 "$@"
    says "--help tells how"
    check "nothing is printed" [ ! -s out ]
}
wrong
wrong ""
wrong store
wrong erase store
wrong check
wrong check store 305
wrong new store
wrong new none -1
wrong new none 1x
wrong new none ""
wrong new none " 1"
wrong new none 0x10
wrong new none 4294967296
wrong new none 99999999999999999999
wrong add store $keys
wrong add store 305
wrong add store 305 --old-key old.key
wrong add store 305 --new-key new.key
wrong add store 305 --key new.key $keys
wrong add store 305 $keys --new-key new.key
wrong add store 305 --key
wrong read store 305 306 $keys
wrong read store +305 $keys
wrong revise store 305 $keys
wrong revise store 305 1 2 $keys
wrong remove store 305 $keys
wrong remove store 305 --force
wrong check store -v
wrong check store --wait
wrong list store --copies 2
wrong rekey store $keys --copies 0
wrong rekey store $keys --copies 65
wrong rekey store $keys --copies many
wrong import-xts store 305 $keys --unit 7
says "--xts-key goes with import-xts"
wrong import-xts store 305 $keys --xts-key disk32.key
says "--unit goes with import-xts"
wrong import-xts store 305 --xts-key disk32.key --unit 7
wrong import-xts store $keys --xts-key disk32.key --unit 7
wrong import-xts store 305 $keys --xts-key disk32.key --unit 7 --block 0
wrong import-xts store 305 $keys --xts-key disk32.key --unit 18446744073709551616
says "not a number from 0 to 18446744073709551615: 18446744073709551616"
wrong import-xts store 305 $keys --xts-key disk32.key --unit 99999999999999999999
wrong import-xts store 305 $keys --xts-key disk32.key --unit -1
wrong import-xts store 305 $keys --xts-key disk32.key --unit 0x7
wrong import-xts store 305 $keys --xts-key disk32.key --unit ""
wrong add store 305 $keys --unit 7
says "--unit does not go with add"
wrong xts-block store --xts-key disk32.key --unit 7 --block 0
says "one word too many: store"
wrong xts-block --unit 7 --block 0
wrong xts-block --xts-key disk32.key --block 0
wrong xts-block --xts-key disk32.key --unit 7
says "--block goes with xts-block"
wrong xts-block --xts-key disk32.key --unit 7 --block 0 --key new.key
wrong xts-block --xts-key disk32.key --unit 7 --block 0 --wait
kept store
check "no store is made by wrong usage" [ ! -e none ]

# 104: files that are not there, or are no files; the lock is not made either.
gives 104 check absent
says "absent: No such file or directory"
gives 104 add absent 305 $keys <blue
gives 104 check ""
gives 104 new "" 3
gives 104 new none/store 3
gives 104 new none/ 3
gives 104 add store 400 --key none.key <blue
says "none.key: "
gives 104 add store 400 --key . <blue
gives 104 check .
says ".: not a regular file"
gives 104 remove . 305
gives 104 check /
gives 104 new "$(bytes 247)" 3
mkdir store.desk-new
gives 104 remove store 306
rmdir store.desk-new
check "no lock is made for no store" [ ! -e absent.desk-lock ]

# A file that cannot be written to its end: the limit of 2,048 bytes stands for a full disk.
(trap '' XFSZ && ulimit -f 4 && exec "$desk" remove store 306 >out 2>err)
check "remove with a limit on files ends with 104" [ $? -eq 104 ]
says "store.desk-new: "
check "what was half written is gone" [ ! -e store.desk-new ]

# A stream that is closed is not mistaken for a file that is opened next.
"$desk" add store 400 $keys <&- >out 2>err
check "add without standard input ends with 104" [ $? -eq 104 ]
"$desk" add store 400 $keys <blue >&- 2>err
check "add without standard output ends with 104" [ $? -eq 104 ]
"$desk" add store 400 $keys <blue >out 2>&-
check "add without standard error ends with 104" [ $? -eq 104 ]
kept store

# 105: the store was changed, but the answer did not get out.
"$desk" add store 400 $keys <blue >/dev/full 2>err
check "add to a full device ends with 105" [ $? -eq 105 ]
record blue400 400 1 2 blue new.key
holds store hold4294967295 dry306 blue400
# Where nothing was changed, it is a file that could not be written.
"$desk" read store 400 $keys >/dev/full 2>err
check "read to a full device ends with 104" [ $? -eq 104 ]

# 106
note store
gives 106 new store 3
says "store: there is a file of that name already"
kept store
gives 106 new . 3
