#!/bin/sh
# dist_test.sh ARCHIVE DIRECTORY VERSION: unpacks the archive of make dist in an empty folder made in the directory, and uses it there as somebody would
# who has a C compiler and no kit: builds and runs programs against it, runs its programs, and follows the README's walk and the lessons. CC and CXX are
# the compilers with their flags.
set -u
here=$(cd "$(dirname "$0")" && pwd) || exit 2
. "$here/checks.sh"
archive=$1
version=$3
work=$(mktemp -d "$2/dist-test.XXXXXX") || exit 2
trap 'rm -rf "$work"' EXIT
cd "$work" || exit 2
mkdir empty kit
tar -C empty -xzf "$archive" || exit 2
check "all stands in one folder" [ "$(ls empty)" = "lagunedo-$version" ]

# Moved once more, so that nothing can go by the place where it was unpacked. The kit and cargo are shadowed by programs that tell of their use.
mv "empty/lagunedo-$version" vendor
top=$work/vendor
for tool in rt cargo; do
    printf '#!/bin/sh\necho %s >>"%s/used"\nexit 1\n' "$tool" "$work" >"kit/$tool"
    chmod +x "kit/$tool"
done
PATH=$work/kit:$PATH
PKG_CONFIG_LIBDIR=$top/lib/pkgconfig
PKG_CONFIG_PATH=
export PATH PKG_CONFIG_LIBDIR PKG_CONFIG_PATH

for file in README.txt include/lagunedo.h include/lagunedo_file.h lib/liblagunedo.a lib/liblagunedo.so "lib/liblagunedo.so.$version" \
    lib/liblagunedo_file.a lib/pkgconfig/lagunedo.pc \
    bin/lagunedo-desk bin/lagunedo-listing bin/lagunedo-eme2 bin/lagunedo-lesson \
    share/man/man1/lagunedo-desk.1 share/man/man1/lagunedo-listing.1 share/man/man1/lagunedo-eme2.1 share/man/man1/lagunedo-lesson.1 \
    share/man/man3/lagunedo.3 \
    share/doc/lagunedo/README.md share/doc/lagunedo/example.c share/doc/lagunedo/docs/LESSONS.md \
    share/doc/lagunedo/docs/changes/01-revisions-past-65535.md; do
    check "$file is there" [ -f "$top/$file" ]
done
check "every link leads somewhere" [ -z "$(find "$top" -type l ! -exec test -e {} \; -print)" ]
check "no file names the folder where it was built" [ -z "$(grep -rlF "$(dirname "$here")" "$top")" ]
check "every version is filled in" [ -z "$(grep -rlF @VERSION@ "$top/README.txt" "$top/share/man" "$top/lib/pkgconfig")" ]

for page in "$top"/share/man/man?/*; do
    check "groff has nothing to say against ${page##*/}" [ -z "$(groff -man -ww -Tutf8 "$page" 2>&1 >page)" ]
done

# One version.
printf '#include <lagunedo.h>\n#include <stdio.h>\nint main(void) { return puts(LAGUNEDO_VERSION) < 0; }\n' >version.c
check "a program with the version is built" $CC $(pkg-config --cflags lagunedo) -o version version.c
check "the header's version is $version" [ "$(./version)" = "$version" ]
check "pkg-config's version is $version" [ "$(pkg-config --modversion lagunedo)" = "$version" ]
for program in desk eme2 lesson; do
    "$top/bin/lagunedo-$program" --version >out
    check "the version of $program is $version" grep -q "(Lagunedo) $version\$" out
done

# The first program of the README, and the example, over both libraries. What the README says of the first, it prints.
page=$top/share/doc/lagunedo/README.md
awk '/^```/ { inside = $0 == "```c"; next } inside' "$page" >first.c
cp "$top/share/doc/lagunedo/example.c" example.c
for program in first example; do
    check "$program.c is built over the static library" $CC "-I$top/include" -o "$program-static" $program.c "$top/lib/liblagunedo.a"
    check "$program.c is built over the shared library" $CC $(pkg-config --cflags lagunedo) -o "$program-shared" $program.c $(pkg-config --libs lagunedo)
    check "$program runs over the static library" "./$program-static" >"$program.out"
    check "$program runs over the shared library" env "LD_LIBRARY_PATH=$top/lib" "./$program-shared" >"$program.shared"
    check "$program prints the same over both" cmp -s "$program.out" "$program.shared"
done
check "the first program prints two lines" [ "$(wc -l <first.out)" -eq 2 ]
while IFS= read -r line; do check "the README says that it prints: $line" grep -qF "\`$line\`" "$page"; done <first.out
check "the example rekeys its store" grep -qx 'check       used 4 free 1 clear 0 old key 0 new key 4' example.out
check "the header is compiled as C++" $CXX $(pkg-config --cflags lagunedo) -c -o header.o "$here/c/header.cpp"

# The walk and the lessons, by the archive's own programs and nothing else of ours.
LESSONS_PROGRAMS=$top/lessons "$here/../tools/lessons" # its last line counts the commands
check "the walk and the lessons go by the archive's programs" [ $? -eq 0 ]
check "neither the kit nor cargo was used" [ ! -e used ]
all_passed dist
