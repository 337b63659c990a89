# What is otherwise at a terminal. script(1) lends one where it can; what a program prints there is in seen, both streams together.

at_terminal() { # INPUT WORDS..
    input=$1
    shift
    script -qec "'$desk' $*" /dev/null <"$input" | tr -d '\r' >seen
}

if script -qec true /dev/null </dev/null >/dev/null 2>&1; then
    # The bar of rekey, up to the end.
    cp mixed shown
    at_terminal /dev/null rekey shown $keys
    tr '\r' '\n' <seen >bars
    check "the bar on a terminal begins" grep -q '\[##########  ' bars
    check "the bar on a terminal ends" grep -q '\[##########*\] 100%' bars
    holds shown to1 to2 free new4 to5

    # Bytes that cannot be shown are escaped, and the backslash with them; --raw prints every byte.
    printf 'TAB\tBELL\007 BACK\\ESC\033[31m\303\244\377 LAST\n' >odd
    gives 0 new odd.store 1
    gives 0 add odd.store 7 $keys <odd
    at_terminal /dev/null read odd.store 7 $keys
    check "what cannot be shown is escaped" grep -qxF "$(printf 'TAB\t')"'BELL\x07 BACK\\ESC\x1b[31m\xc3\xa4\xff LAST' seen
    check "it is said how many bytes" grep -q 'bytes that cannot be shown, .*: 5; --raw' seen
    at_terminal /dev/null read odd.store 7 $keys --raw
    sed 1d seen >shown.raw
    check "--raw prints every byte" cmp -s odd shown.raw
    gives 0 read odd.store 7 $keys
    check "to a file every byte is printed" cmp -s odd out
    gives 0 read odd.store 7 $keys --raw
    check "to a file --raw changes nothing" cmp -s odd out
    gives 0 new plain.store 1
    gives 0 add plain.store 7 $keys <blue
    at_terminal /dev/null read plain.store 7 $keys
    check "a plain text is shown as it is" [ "$(cat seen)" = "revision 1
$(cat blue)" ]

    # Letters of the locale are shown, where the machine has one of UTF-8.
    if [ "$(LC_ALL=C.UTF-8 locale charmap 2>/dev/null)" = UTF-8 ]; then
        LC_ALL=C.UTF-8
        at_terminal /dev/null read odd.store 7 $keys
        LC_ALL=C
        check "letters of the locale are shown" grep -qF "$(printf '[31m\303\244\\xff LAST')" seen
    fi

    # So it is with a block.
    printf 'BELL\007 \377 \\ SIXTEEN' | head -c 16 >odd
    unit odd.unit disk32.key 7 odd
    at_terminal /dev/null xts-block --xts-key disk32.key --unit 7 --block 0 "<odd.unit"
    check "a block is escaped" grep -qF 'BELL\x07 \xff \\ SIXTEE' seen

    # A text from the terminal itself: what is read is said, and end of input ends it.
    printf 'PRESS 2 BLUE, DRY 20 MIN\n\004' >typed
    gives 0 new typed.store 1
    at_terminal typed add typed.store 305 $keys
    check "add says that it reads until end of input" grep -q 'reads the text until end of input' seen
    holds typed.store blue305
    at_terminal typed revise typed.store 305 1 $keys
    check "revise says so too" grep -q 'reads the text until end of input' seen
    at_terminal typed xts-block --xts-key disk32.key --unit 7 --block 0
    check "xts-block says so of a unit" grep -q 'reads the unit until end of input' seen
fi
gives 0 new piped.store 1
gives 0 add piped.store 305 $keys <blue
check "nothing is said where the text comes from a file" [ ! -s err ]
