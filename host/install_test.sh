#!/bin/sh
# install_test.sh PREFIX STAGE VERSION: what make install put below PREFIX is used from there alone, as a job server's build would;
# below STAGE it stands as a package would have it, for the prefix /usr. CC and CXX are the compilers with their flags.
set -u
here=$(cd "$(dirname "$0")" && pwd) || exit 2
. "$here/checks.sh"
prefix=$1
stage=$2
version=$3
work=$(mktemp -d "$prefix.XXXXXX") || exit 2
trap 'rm -rf "$work"' EXIT

installed=$(printf '%s\n' bin/lagunedo-desk bin/lagunedo-listing include/lagunedo.h include/lagunedo_file.h lib/liblagunedo.a \
    "lib/liblagunedo.so.$version" lib/liblagunedo_file.a lib/pkgconfig/lagunedo.pc share/man/man1/lagunedo-desk.1 \
    share/man/man1/lagunedo-listing.1 share/man/man3/lagunedo.3)

files_below() { # DIRECTORY
    (cd "$1" && find . -type f | sed 's|^\./||' | LC_ALL=C sort)
}

mode_of() { # FILE
    ls -l "$1" | cut -c 1-10
}

# No other package of the machine is looked at.
flags() { # OPTIONS..
    PKG_CONFIG_LIBDIR="$prefix/lib/pkgconfig" PKG_CONFIG_PATH='' pkg-config "$@" lagunedo
}

check "the files installed are those listed" [ "$(files_below "$prefix")" = "$installed" ]
check "the stage has the same files" [ "$(files_below "$stage/usr")" = "$installed" ]
check "the stage has nothing but /usr" [ "$(ls "$stage")" = usr ]
for file in $installed; do
    case $file in bin/* | *.so.*) mode=-rwxr-xr-x ;; *) mode=-rw-r--r-- ;; esac
    check "$file has mode $mode" [ "$(mode_of "$prefix/$file")" = "$mode" ]
    case $file in *.pc) continue ;; esac
    check "$file is the same in both" cmp -s "$prefix/$file" "$stage/usr/$file"
done
check "the stage is named in no file" grep -q '^prefix=/usr$' "$stage/usr/lib/pkgconfig/lagunedo.pc"
check "every name is filled in" [ -z "$(sed -n '/@/p' "$prefix/lib/pkgconfig/lagunedo.pc")" ]

# A program in C over the shared library and over the static one, and the header in C++, with the flags that pkg-config gives and no others.
example_runs() { # LIBRARY FLAGS..
    library=$1
    shift
    check "the example is built over the $library library" $CC $(flags --cflags) -o "$work/example" "$here/c/example.c" "$@"
    LD_LIBRARY_PATH="$prefix/lib" "$work/example" >"$work/example.out"
    check "the example runs over the $library library" [ $? -eq 0 ]
    check "the example rekeys its store" grep -qx 'check       used 4 free 1 clear 0 old key 0 new key 4' "$work/example.out"
}

needs() { # FILE: the shared libraries that it asks for
    objdump -p "$1" | awk '$1 == "NEEDED" { printf "%s ", $2 }'
}

soname=liblagunedo.so.${version%%.*}
check "the version is $version" [ "$(flags --modversion)" = "$version" ]
example_runs shared $(flags --libs)
check "it asks for $soname" [ "$(needs "$work/example")" = "$soname libc.so.6 " ]
example_runs static $(flags --variable=archives)
check "it asks for no library of ours" [ "$(needs "$work/example")" = "libc.so.6 " ]
check "the header is compiled as C++" $CXX $(flags --cflags) -c -o "$work/header.o" "$here/c/header.cpp"

# The programs run, by their installed names.
"$prefix/bin/lagunedo-desk" --help >"$work/help"
check "the desk runs by its installed name" grep -q '^usage: lagunedo-desk COMMAND \[STORE\]' "$work/help"
check "the listing runs" [ "$("$prefix/bin/lagunedo-listing" </dev/null)" = "used 0 free 0 clear 0 old 0 new 0" ]

# A job server over the file library shares a store with the installed desk; its header is C++ too.
desk=$prefix/bin/lagunedo-desk
check "the server is built" $CC $(flags --cflags) -o "$work/server" "$here/c/server.c" $(flags --libs)
printf '%064d' 4711 >"$work/key"
check "the desk makes a store" "$desk" new "$work/store" 2 >"$work/out"
LD_LIBRARY_PATH="$prefix/lib"
export LD_LIBRARY_PATH
check "the server adds a sheet" "$work/server" "$work/store" "$work/key" 305 'PRESS 4 HOLD 5AM' >"$work/out"
check "the server tells it" [ "$(cat "$work/out")" = "added 305 at revision 1" ]
check "the desk reads it" [ "$("$desk" read "$work/store" 305 --key "$work/key" 2>"$work/err")" = 'PRESS 4 HOLD 5AM' ]
echo '#include "lagunedo_file.h"' >"$work/file.cpp"
check "the file library's header is compiled as C++" $CXX $(flags --cflags) -c -o "$work/file.o" "$work/file.cpp"

# The shared library offers the calls that the header declares, and nothing else; it needs nothing but libc.
declared=$(sed -n 's/^uint32_t \(lagunedo_[a-z0-9_]*\)(.*/\1/p' "$prefix/include/lagunedo.h" | LC_ALL=C sort)
offered=$(nm -D --defined-only "$prefix/lib/liblagunedo.so" | awk '{ print $3 }' | LC_ALL=C sort)
check "the shared library offers the header's calls" [ "$offered" = "$declared" ]
check "the shared library needs libc alone" [ "$(needs "$prefix/lib/liblagunedo.so")" = "libc.so.6 " ]
check "its code is loaded as it is" [ -z "$(objdump -p "$prefix/lib/liblagunedo.so" | grep TEXTREL)" ]

# The page of the calls has each of them, and groff has nothing to say against it.
for call in $declared; do check "the page has $call" grep -qx ".SS $call" "$prefix/share/man/man3/lagunedo.3"; done
for page in "$prefix"/share/man/man?/*; do
    check "${page##*/} is a sound page" [ -z "$(groff -man -ww -Tutf8 "$page" 2>&1 >"$work/page")" ]
    check "${page##*/} names the version" grep -q "Lagunedo $version" "$page"
done
all_passed install
