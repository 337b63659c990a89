# The fingerprint: SHA-256's published answers (FIPS 180-4's examples, as NIST prints them), and that of a store.

is_digest() { # FILE DIGITS
    check "the SHA-256 of $1 is $2 (it is $(fingerprint_of "$1"))" [ "$(fingerprint_of "$1")" = "$2" ]
}

is_digest /dev/null e3b0c44298fc1c149afbf4c8996fb92427ae41e4649b934ca495991b7852b855
printf abc >message
is_digest message ba7816bf8f01cfea414140de5dae2223b00361a396177a9cb410ff61f20015ad
printf abcdbcdecdefdefgefghfghighijhijkijkljklmklmnlmnomnopnopq >message
is_digest message 248d6a61d20638b8e5c026930c3e6039a33ce45964ff2167f6ecedd419db06c1
printf abcdefghbcdefghicdefghijdefghijkefghijklfghijklmghijklmnhijklmnoijklmnopjklmnopqklmnopqrlmnopqrsmnopqrstnopqrstu >message
is_digest message cf5b16a778af8380036ce59e7b0492370b249b11e8f07a51afac45037afee9d1
head -c 1000000 /dev/zero | tr '\000' a >message
is_digest message cdc76e5c9914fb9281a1c7e284d73e67f1809a48a497200e046d39ccc7112cd0

# Every length around the padding's edges, beside the program of others.
if command -v sha256sum >/dev/null 2>&1; then
    for length in 1 54 55 56 57 62 63 64 65 118 119 120 121 127 128 129 4096 65535; do
        bytes "$length" >message
        is_digest message "$(sha256sum <message | cut -d ' ' -f 1)"
    done
    check "a store's fingerprint is what sha256sum prints" \
        [ "$("$desk" check store | sed -n 's/^fingerprint //p')" = "$(sha256sum <store | cut -d ' ' -f 1)" ]
fi

# A store without a slot has one, and a faulty store has none.
counts empty.store "used 0 free 0 clear 0 old 0 new 0"
cp unsound faulty
gives 100 check faulty
prints "fault at 0"
