#!/bin/bash
# Makes a Debian package of the program, the tools for C, the library for hosts, its headers, the pages, the manual
# pages, the completions, the licence and the schema.
#
#   release/deb.sh [FOLDER]    puts wathread_VERSION_amd64.deb into FOLDER, without it out/
#
# It takes dpkg-deb, nm, strip and a C compiler. DEBFULLNAME and DEBEMAIL name the maintainer, without them the author
# of the last commit, whose time is that of the files.
set -eu
umask 022
top=$(cd "$(dirname "$0")/.." && pwd)
. "$top/release/package.sh"

stop() { echo "release/deb.sh: $*" >&2; exit 1; }
for it in dpkg-deb nm strip gzip git md5sum; do command -v "$it" >/dev/null || stop "there's no $it"; done

out=${1:-$top/out}
version=$(version_of_sources)
lib=lib/x86_64-linux-gnu
doc=usr/share/doc/wathread
room=$(mktemp -dt wathread.XXXXXX)
trap 'rm -rf "$room"' EXIT
root=$room/root
SOURCE_DATE_EPOCH=$(git -C "$top" log -1 --format=%ct)
export SOURCE_DATE_EPOCH

# Prints the highest version of the C library's that the files want.
libc_of() { nm -D "$@" | sed -n 's/.*@GLIBC_\([0-9.]*\)$/\1/p' | sort -Vu | tail -n 1; }

# Installs as `./wathread --install` does, and moves what Debian has at other places.
put_files() {
    local it
    "$top/wathread" --install "$root/usr" >/dev/null 2>"$room/said" || { cat "$room/said" >&2; exit 1; }
    [ -f "$root/usr/lib/libwathread.so" ] || { cat "$room/said" >&2; stop "the library isn't whole"; }
    mv "$root/usr/lib/libwathread.a" "$room"
    rm -rf "$root/usr/lib"
    "$top/release/install_library.sh" "$room/libwathread.a" "$root/usr" "$lib" /usr >/dev/null
    # The program stays byte for byte the one that ./wathread --prove makes.
    strip --strip-unneeded "$root/usr/$lib/libwathread.so.$version"
    chmod 644 "$root/usr/$lib/libwathread.so.$version"
    mkdir -p "$root/usr/share/zsh/vendor-completions"
    mv "$root/usr/share/zsh/site-functions/"* "$root/usr/share/zsh/vendor-completions"
    rmdir "$root/usr/share/zsh/site-functions"
    mkdir -p "$root/$doc/docs" "$root/$doc/c" "$root/usr/share/wathread"
    cp "$top/README.md" "$root/$doc"
    cp "$top/docs/"*.md "$root/$doc/docs"
    cp "$top/c/README.md" "$root/$doc/c"
    cp "$top/docs/wathread.schema.json" "$root/usr/share/wathread"
    find "$root" -name __pycache__ -prune -exec rm -r {} +
    chmod -R u=rwX,go=rX "$root"
    grep -lrZ '^#!' "$root/usr/libexec/wathread/c" | xargs -0 chmod 755
    gzip -9n "$root/usr/share/man/man1/"*.1
}

put_copyright() {
    cat <<END
Format: https://www.debian.org/doc/packaging-manuals/copyright-format/1.0/
Upstream-Name: wathread

Files: *
Copyright: $(sed -n 's/^Copyright (c) //p' "$top/LICENSE")
License: Expat
$(sed -n '/^Permission/,$p' "$top/LICENSE" | sed 's/^$/./; s/^/ /')
END
}

put_changelog() {
    printf 'wathread (%s) unstable; urgency=low\n\n  * Version %s.\n\n -- %s  %s\n' "$version" "$version" \
        "$maintainer" "$(date -uRd "@$SOURCE_DATE_EPOCH")"
}

put_overrides() {
    cat <<'END'
# The program is byte for byte the one that is proved and built, and that ./wathread --prove compares.
wathread: unstripped-binary-or-object [usr/libexec/wathread/wathread]
# One package has the program and the library, which has no other users in Debian.
wathread: package-name-doesnt-match-sonames libwathread0
wathread: link-to-shared-library-in-wrong-package *
# wathread-rustc has --help.
wathread: no-manual-page [usr/bin/wathread-rustc]
END
}

put_control() {
    cat <<END
Package: wathread
Version: $version
Architecture: amd64
Maintainer: $maintainer
Installed-Size: $(du -sk "$root/usr" | cut -f1)
Depends: libc6 (>= $(libc_of "$root/usr/libexec/wathread/wathread" "$root/usr/$lib/libwathread.so")), python3
Recommends: clang (>= 1:14), lld
Suggests: rustc, libstd-rust-dev-wasm32
Section: devel
Priority: optional
Description: proved interpreter of WebAssembly modules with threads
 wathread runs C programs whose threads share one memory, keeps a run that you
 want to keep, and makes that same run again as often as you like. It takes
 them as WebAssembly modules, and searches through the orders of their threads
 for those that fail.
 .
 The package has the program, the compilers wathread-cc and wathread-rustc, and
 the library for hosts with its headers.
END
}

maintainer="${DEBFULLNAME:-$(git -C "$top" log -1 --format=%an)} <${DEBEMAIL:-$(git -C "$top" log -1 --format=%ae)}>"
put_files
put_copyright >"$root/$doc/copyright"
put_changelog | gzip -9n >"$root/$doc/changelog.gz"
mkdir -p "$root/usr/share/lintian/overrides" "$root/DEBIAN"
put_overrides >"$root/usr/share/lintian/overrides/wathread"
put_control >"$root/DEBIAN/control"
echo "libwathread ${version%%.*} wathread (>= $version)" >"$root/DEBIAN/shlibs"
echo "activate-noawait ldconfig" >"$root/DEBIAN/triggers"
(cd "$root" && find usr -type f -print0 | LC_ALL=C sort -z | xargs -0 md5sum) >"$root/DEBIAN/md5sums"
find "$root" -exec touch -hd "@$SOURCE_DATE_EPOCH" {} +
mkdir -p "$out"
dpkg-deb --root-owner-group --build "$root" "$out/wathread_${version}_amd64.deb" >/dev/null
echo "$out/wathread_${version}_amd64.deb"
