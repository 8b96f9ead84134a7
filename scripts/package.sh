#!/bin/sh
# package.sh dist: an archive of the source, and one of the built program with its pages, the documents and install.sh,
# and the C library where make library has left it, into dist/.
# package.sh deb: Debian packages of the same, into dist/, by debian/ and dpkg-buildpackage. It wants debhelper.
# Both work in an archive of the source, too. What they make is the same from call to call; SOURCE_DATE_EPOCH is the
# time of the files in an archive, by default that of debian/changelog.
set -eu
cd "$(dirname "$0")/.."
version=$(cat VERSION)
seconds=${SOURCE_DATE_EPOCH:-$(date -u -d "$(sed -n 's/^ -- .*>  //p' debian/changelog | head -n 1)" +%s)}
source=pnmpipe-$version
built=$source-linux-$(uname -m)
work=$(mktemp -d)
trap 'rm -rf "$work"' EXIT

fail() {
    echo "package.sh: $1" >&2
    exit 1
}

# the files of the source: as git has them, or in an archive of the source all that wasn't built
source_files() {
    if [ -e .git ]; then
        git ls-files
    else
        find . -type d \( -name bin -o -name dist -o -name out -o -name __pycache__ \) -prune -o -type f -print
    fi
}

# a copy of the source
copy_source() {
    mkdir -p dist "$work/$source"
    source_files > "$work/files"
    xargs -d '\n' cp -P --parents -t "$work/$source" < "$work/files"
}

# packed NAME: an archive of a folder, in dist/
packed() {
    tar -C "$work" --sort=name --owner=0 --group=0 --numeric-owner --mode=u=rwX,go=rX --mtime="@$seconds" -cf - "$1" \
        | gzip -n -9 > "dist/$1.tar.gz"
}

# the toolchain's line: its own, or the one that the documents name
toolchain() {
    if command -v rt > /dev/null; then
        rt version
    else
        # shellcheck disable=SC2016
        sed -n 's/^The toolchain (`\([^`]*\)`).*/\1/p' docs/PROMISES.md
    fi
}

dist() {
    copy_source
    packed "$source"
    make -s install DESTDIR="$work/$built" PREFIX= > /dev/null
    if command -v strip > /dev/null; then
        strip --strip-unneeded "$work/$built/bin/pnmpipe"
    else
        echo "package.sh: strip isn't there, so the program keeps its symbols" >&2
    fi
    # (the archive may be put below any folder)
    if [ -e "$work/$built/lib" ]; then
        # shellcheck disable=SC2016
        sed -i -e 's|^prefix=.*|prefix=${pcfiledir}/../..|' -e 's|^libdir=|libdir=${prefix}|' \
            "$work/$built/lib/pkgconfig/pnmpipe.pc"
    fi
    for file in README.md CHANGELOG.md CONTRIBUTING.md VERSION LICENSE docs helpers/install.sh; do
        [ ! -e "$file" ] || cp -R "$file" "$work/$built"
    done
    toolchain > "$work/$built/TOOLCHAIN"
    (cd "$work/$built" && find . -type f | LC_ALL=C sort | xargs sha256sum > "$work/sums" \
        && mv "$work/sums" SHA256SUMS)
    packed "$built"
    (cd dist && sha256sum "$source.tar.gz" "$built.tar.gz" > SHA256SUMS && cat SHA256SUMS)
}

deb() {
    command -v dh > /dev/null || fail "there is no dh: install debhelper, which makes the packages"
    copy_source
    mkdir "$work/$source/bin"
    cp bin/pnmpipe "$work/$source/bin"
    if [ -e bin/libpnmpipe.so.1 ]; then
        cp bin/libpnmpipe.a bin/libpnmpipe.so.1 bin/pnmpipe.h "$work/$source/bin"
    else
        DEB_BUILD_PROFILES="${DEB_BUILD_PROFILES-} pkg.pnmpipe.nolibrary"
        export DEB_BUILD_PROFILES
    fi
    # (all is built, so what builds needn't be there)
    (cd "$work/$source" && dpkg-buildpackage -b -d -nc -us -uc)
    mv "$work"/*.deb dist
}

case ${1-} in
    dist | deb) "$1" ;;
    *) fail "usage: package.sh dist|deb" ;;
esac
