# The store kept from before revisions had four bytes: it means what it meant, goes on past 65,535, and this desk would make the same.

earlier=$here/../../vectors/store-before-order-1
cp "$earlier/store" earlier
cp "$earlier/old.key" earlier.old
cp "$earlier/new.key" earlier.new
chmod 600 earlier.old earlier.new
earlier_keys="--old-key earlier.old --new-key earlier.new"

counts earlier "used 16 free 2 clear 3 old 6 new 7"
gives 0 list earlier
check "it is listed as it was then" cmp -s out "$earlier/listing"

# Every sheet has its text, and the revision that the listing of then gives it, now or some revisions on.
texts_read() { # STORE MORE KEYS..: MORE revisions on
    file=$1 more=$2
    shift 2
    sheets=0
    while read -r slot sheet revision rest; do
        [ "$slot" != used ] || continue
        gives 0 read "$file" "$sheet" "$@"
        check "sheet $sheet of $file has its text" cmp -s out "$earlier/texts/$sheet"
        check "sheet $sheet of $file is at its revision" [ "$(cat err)" = "revision $((revision + more))" ]
        sheets=$((sheets + 1))
    done <"$earlier/listing"
    check "16 sheets of $file are read" [ "$sheets" = 16 ]
}
texts_read earlier 0 $earlier_keys
refuses 7 read earlier 310 $earlier_keys

cp earlier earlier.rekeyed
gives 0 rekey earlier.rekeyed $earlier_keys
prints "copy 1 converted 9 already 7 free 2 damaged 0"
counts earlier.rekeyed "used 16 free 2 clear 0 old 0 new 16"
texts_read earlier.rekeyed 0 --key earlier.new

cp earlier earlier.revised
while read -r slot sheet revision rest; do
    [ "$slot" != used ] || continue
    gives 0 revise earlier.revised "$sheet" "$revision" $earlier_keys <"$earlier/texts/$sheet"
    prints "revision $((revision + 1))"
done <"$earlier/listing"
gives 0 list earlier.revised
check "65,535 went on to 65,536 in three slots" [ "$(grep -c ' 65536 2 ' out)" = 3 ]
texts_read earlier.revised 1 --key earlier.new

mkdir earlier.made
check "this desk makes the store too" "$earlier/make" "$desk" earlier.made >out 2>err
check "the store made is the one kept" cmp earlier.made/store "$earlier/store"
check "and so is its listing" cmp earlier.made/listing "$earlier/listing"
