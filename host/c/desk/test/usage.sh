# The command line as getopt_long reads it, the help, the version and the man page.

# Values after = or as the next word; options before, between and after the words, whatever POSIXLY_CORRECT says.
gives 0 read store 306 --old-key=old.key --new-key=new.key
check "a value may follow =" cmp -s out dry
for words in "read store 306 --key new.key" "--key=new.key read store 306" "read --key new.key store 306"; do
    POSIXLY_CORRECT=1 "$desk" $words >out 2>err
    check "options stand anywhere in '$words'" cmp -s out dry
done
wrong read store 306 --key=new.key --raw=yes
wrong read store 306 --key=new.key -x
says "there is no option -x"
wrong add store 305 --key= --key=new.key
says "given twice: --key"
wrong check store --raw
says "--raw does not go with check"
wrong read store 306 --key new.key --seen "$(fingerprint_of store)"
wrong begin store --key new.key
says "--seen goes with begin"
wrong begin store --seen "$(fingerprint_of store)"
says "--key goes with begin"
wrong begin store $keys --seen "$(fingerprint_of store)"
says "--old-key does not go with begin"
for seen in "" 0 "$(fingerprint_of store)0" "$(fingerprint_of store | tr 0-9a-f g)"; do
    wrong begin store --key new.key --seen "$seen"
    says "not a fingerprint of 64 hex digits"
done
wrong begin store 305 --key new.key --seen "$(fingerprint_of store)"
gives 104 read store 306 --key=
says ": No such file or directory"

# The help names every command, option and status, and goes to standard output.
names="new check list add read revise remove begin rekey import-xts xts-block"
narrow() { # no line of the last run is wider than a terminal may be
    check "no line is over 79 columns ($(awk 'length > 79' out))" [ -z "$(awk 'length > 79' out)" ]
}
for word in --help -h; do
    gives 0 "$word"
    check "$word says nothing on standard error" [ ! -s err ]
    for row in $names --old-key --new-key --key --xts-key --unit --block --seen --copies --raw --wait -h, --version --man; do
        check "help tells of $row" grep -q -e "^  $row" out
    done
    for status in 0 1 2 3 4 5 6 7 8 9 10 11 12 13 14 15 16 17 100 101 102 103 104 105 106 107 108; do
        check "help tells of status $status" grep -q "^ *$status  " out
    done
    narrow
done

# Of one command, before or after its name; by the installed name too.
ln -s "$desk" lagunedo-desk
begins() { # NAME: how its usage begins; xts-block alone needs no store
    [ "$1" = xts-block ] && echo "$1 --xts-key FILE" || echo "$1 STORE"
}
for name in $names; do
    gives 0 "$name" --help
    check "the help is that of $name" grep -q "^usage: desk $(begins "$name")" out
    narrow
    cp out one.help
    gives 0 -h "$name"
    check "-h $name is the same" cmp -s out one.help
    ends_with 0 ./lagunedo-desk "$name" -h
    check "it goes by the name it was called by" grep -q "^usage: lagunedo-desk $(begins "$name")" out
    narrow
done
ends_with 0 ./lagunedo-desk --help
narrow
wrong --help erase
says "there is no command erase"

gives 0 --version
check "the version is one line with a number" grep -qx 'desk (Lagunedo) [0-9][0-9.]*[0-9]' out

# The man page has the same rows, under the installed name. groff, where there is one, has nothing to say against it.
gives 0 --man
cp out page
check "the man page is that of lagunedo-desk" grep -q '^\.TH LAGUNEDO-DESK 1 ' page
for name in $names; do check "the man page tells of $name" grep -q "^\.B $(echo "$name" | sed 's/-/\\\\-/')\( STORE\|\$\)" page; done
for option in key unit block seen wait copies raw version; do check "the man page tells of --$option" grep -q "^\.B .*\\\\-\\\\-$option" page; done
for status in 0 14 17 100 108; do check "the man page tells of status $status" grep -qx "\.B $status" page; done
if command -v groff >/dev/null 2>&1; then
    groff -man -Tascii -ww -z page >groffed 2>&1
    check "groff takes the page ($(cat groffed))" [ ! -s groffed ]
fi
