# The packages libdomethyme1 and libdomethyme-dev: packaging/build-deb sources this, with its functions and variables.
#
# What has to be as Debian's policy has it for libraries: `symbols` says which package a program needs that uses a call, by the
# list libdomethyme1.symbols beside this file, which the library has to fit; `shlibs` says it of all calls; ldconfig is run.
# shellcheck shell=bash disable=SC2154
libraries=usr/lib/x86_64-linux-gnu

# library_documents NAME: the licences and the changes.
library_documents() {
    local doc=usr/share/doc/$1
    mkdir -p "$root/$doc" "$root/DEBIAN"
    { cat packaging/library/copyright; awk -v RS= -v ORS='\n\n' '/^License: (Expat|Apache-2\.0)\n/' packaging/copyright; } |
        sed '$d' >"$root/$doc/copyright"
    log >"$root/$doc/changelog"
    gzip -9n "$root/$doc/changelog"
}

# library_control NAME SECTION DEPENDS: the control file, but the description, which is the standard input.
library_control() {
    cat <<END
Package: $1
Source: domethyme
Version: $version$trial
Architecture: amd64
Multi-Arch: same
Maintainer: $(git log -1 --format='%an <%ae>')
Installed-Size: $(size)
Depends: $3
Section: $2
Priority: optional
END
    cat
}

root=$beside/libdomethyme1
put 644 "$library" "$libraries/libdomethyme.so.1"
library_documents libdomethyme1
proved "$libraries/libdomethyme.so.1" >"$root/usr/share/doc/libdomethyme1/PROVED"
symbols=packaging/library/libdomethyme1.symbols
dpkg-gensymbols -c4 -plibdomethyme1 "-v$version$trial" "-I$symbols" "-e$root/$libraries/libdomethyme.so.1" \
    "-O$root/DEBIAN/symbols" || fail "$symbols isn't what the library has"
echo "libdomethyme 1 libdomethyme1 (>= $(sed -n 's/.*@.* //p' "$symbols" | sort -V | tail -1))" >"$root/DEBIAN/shlibs"
echo "activate-noawait ldconfig" >"$root/DEBIAN/triggers"
library_control libdomethyme1 libs "libc6 (>= $(glibc_of "$library"))" >"$root/DEBIAN/control" <<END
Description: shortest paths in road networks, proved exact - library
 The library answers from a file that routecli of the package domethyme has
 prepared: lengths, shortest paths, tables, and paths between several starts and
 several ends. A checker has proved it before it was built.
 .
 Programs that use it need this package, as the Python package domethyme does.
END
pack libdomethyme1

root=$beside/libdomethyme-dev
put 644 "${library%/*}/domethyme.h" usr/include/domethyme.h
put 644 "${library%/*}/libdomethyme.a" "$libraries/libdomethyme.a"
mkdir -p "$root/$libraries/pkgconfig"
ln -s libdomethyme.so.1 "$root/$libraries/libdomethyme.so"
# shellcheck disable=SC2016 # ${prefix} is pkg-config's
sed -e 's|^prefix=.*|prefix=/usr|' -e 's|^libdir=.*|libdir=${prefix}/lib/x86_64-linux-gnu|' "${library%/*}/domethyme.pc" \
    >"$root/$libraries/pkgconfig/domethyme.pc"
library_documents libdomethyme-dev
packaging/pages "$root/usr/share/doc/libdomethyme-dev" docs/LIBRARY.md
for file in examples/library/*; do
    put 644 "$file" "usr/share/doc/libdomethyme-dev/examples/${file##*/}"
done
library_control libdomethyme-dev libdevel "libdomethyme1 (= $version$trial)" >"$root/DEBIAN/control" <<END
Suggests: domethyme, pkgconf
Description: shortest paths in road networks, proved exact - for programs in C
 The header, the static library, the file for pkg-config, and examples in C, Go
 and Rust, for programs that ask libdomethyme.
 .
 The package domethyme has the program routecli, which makes the files that the
 library reads.
END
pack libdomethyme-dev
