# The rekeying job: by one copy and by several, over every mark, free and damaged slots, again, and with a terminal.

# Slots: in clear, old key, free, new key, old key.
record clear1 305 2 0 hold
record old2 306 7 1 blue old.key
record new4 308 1 2 dry new.key
record old5 309 4294967295 1 longest old.key
record to1 305 2 2 hold new.key
record to2 306 7 2 blue new.key
record to5 309 4294967295 2 longest new.key
cat clear1 old2 free new4 old5 >mixed

cp mixed one
gives 0 rekey one $keys
prints "copy 1 converted 3 already 1 free 1 damaged 0"
check "no bar where there is no terminal" [ "$(grep -c '%' err)" = 0 ]
says "one.desk-before is the store as it was"
holds one.desk-before mixed
holds one to1 to2 free new4 to5
counts one "used 4 free 1 clear 0 old 0 new 4"

# What was found under the new key is said in words, if there are two keys; by one copy or by several it is the same.
found_already() { # NUMBER
    says "desk: sheets found marked new key, and left as they were: $1"
    says "desk: each is under the key that it was last written with"
    says "desk: if this rekeying was under way, with both keys given, that is the new key"
    says "desk: if none was under way, it is another key: keep that, and give begin first"
}
silent_about_it() {
    check "nothing is said of sheets found marked new key" [ "$(grep -c 'new key' err)" = 0 ]
}
cp mixed words
gives 0 rekey words $keys --copies 2
found_already 1
cp mixed words
gives 0 rekey words --key old.key
silent_about_it
cp new.key same.key
cp mixed words
gives 0 rekey words --old-key new.key --new-key same.key
silent_about_it
cat clear1 old2 free >words
gives 0 rekey words $keys
silent_about_it

# In turn, the first copy is always first at a slot.
cp mixed three
gives 0 rekey three $keys --copies 3
prints "copy 1 converted 3 already 1 free 1 damaged 0
copy 2 converted 0 already 4 free 1 damaged 0
copy 3 converted 0 already 4 free 1 damaged 0"
holds three to1 to2 free new4 to5
cp mixed many
gives 0 rekey many $keys --copies 64
check "a line for each copy" [ "$(grep -c . out)" = 64 ]
holds many to1 to2 free new4 to5

# Once more: nothing is to be done, and the file is left alone.
note one
gives 0 rekey one $keys
prints "copy 1 converted 0 already 4 free 1 damaged 0"
found_already 4
kept one
holds one.desk-before mixed
gives 0 rekey empty.store $keys
prints "copy 1 converted 0 already 0 free 0 damaged 0"

# 101: damaged slots are named and kept, and the others are converted.
cat clear1 unsound old2 >damaged
gives 101 rekey damaged $keys --copies 2
prints "copy 1 converted 2 already 0 free 0 damaged 1
copy 2 converted 0 already 2 free 0 damaged 1"
says "slot 1, sheet 305, is damaged and was kept as it was"
holds damaged to1 unsound to2
cp unsound alone
note alone
gives 101 rekey alone $keys
kept alone
check "no copy is made where nothing is converted" [ ! -e alone.desk-before ]

# A copy that cannot be made: the store stays.
cp mixed uncopied
mkdir uncopied.desk-before
note uncopied
gives 104 rekey uncopied $keys
kept uncopied
