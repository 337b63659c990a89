#!/bin/sh
# eme2_test.sh EME2 VECTORS DIRECTORY: the program eme2 as its user meets it: the vectors of a file, both ways, and every status. The three are
# absolute paths; in the directory a folder is made for the run and removed again.
set -u
here=$(cd "$(dirname "$0")" && pwd) || exit 2
. "$here/../checks.sh"
eme2=$1
vectors=$2
work=$(mktemp -d "$3/eme2-test.XXXXXX") || exit 2
trap 'rm -rf "$work"' EXIT
cd "$work" || exit 2

gives() { # STATUS WORDS..: eme2 ends with the status
    wanted=$1
    shift
    ends_with "$wanted" "$eme2" "$@"
}

# Runs eme2 on standard input, which must refuse with the number, say what it means, and print no byte.
refuses() { # NUMBER WORDS..
    gives "$@"
    check "eme2 says that it refused with $1 (it said '$(cat err)')" grep -qF "refused with $1: " err
    check "eme2 prints no byte when it refuses with $1" [ ! -s out ]
}

bytes() { # NUMBER: as many zeros
    head -c "$1" /dev/zero
}

# A field of a vector, as printf takes bytes.
field() { # VECTOR WORD
    awk -v vector="$1" -v word="$2" '
    function value(digit) { return index("0123456789abcdef", digit) - 1 }
    $1 == "name" { seen++ }
    $2 == "=" { inside = $1 == word; $1 = $2 = "" }
    seen == vector && inside { gsub(/ /, ""); digits = digits $0 }
    END { for (i = 1; i < length(digits); i += 2) printf "\\%03o", 16 * value(substr(digits, i, 1)) + value(substr(digits, i + 1, 1)) }
    ' "$vectors"
}

number=1
count=$(grep -c '^name = ' "$vectors")
while [ "$number" -le "$count" ]; do
    for word in key ad plain cipher; do printf "$(field "$number" "$word")" >"$word"; done
    gives 0 encipher key --ad ad <plain
    check "vector $number is enciphered" cmp -s out cipher
    gives 0 decipher key --ad ad <cipher
    check "vector $number is deciphered" cmp -s out plain
    number=$((number + 1))
done

# Without --ad the associated data is empty.
: >empty
bytes 48 >key
bytes 20 >message
gives 0 encipher key <message
mv out without
gives 0 encipher key --ad empty <message
check "no associated data is empty associated data" cmp -s out without

# Both sides of each length, and input without end.
for length in 0 47 49 63 65; do bytes $length >other && refuses 1 encipher other <message; done
refuses 1 decipher /dev/zero <message
for length in 48 64; do bytes $length >other && gives 0 encipher other <message; done
for length in 0 15 65537; do bytes $length >other && refuses 2 encipher key <other; done
refuses 2 decipher key </dev/zero
for length in 16 65536; do bytes $length >other && gives 0 encipher key <other; done
for length in 1 1024; do bytes $length >other && gives 0 encipher key --ad other <message; done
bytes 1025 >other
refuses 3 encipher key --ad other <message
refuses 3 decipher key --ad /dev/zero <message

# Wrong usage, and files that cannot be read or written.
gives 102
gives 102 encipher
gives 102 scramble key <message
gives 102 encipher key --ad
gives 102 encipher key --data empty <message
gives 102 encipher key --ad empty more <message
gives 104 encipher nothing <message
gives 104 encipher key --ad nothing <message
gives 104 encipher . <message
"$eme2" encipher key <message >/dev/full 2>err
check "a full disk is told" [ $? -eq 104 ]
gives 0 --help
check "the help says how it is used" grep -q '^usage: eme2 ' out
version=$(sed -n 's/^#define LAGUNEDO_VERSION "\(.*\)"$/\1/p' "$here/../include/lagunedo.h")
gives 0 --version
check "the version is the header's, $version" [ "$(cat out)" = "eme2 (Lagunedo) $version" ]
gives 102 --version more
all_passed eme2
