#!/usr/bin/env bash
# Makes packages of the files that install.sh installs, for Linux on x86-64 with glibc 2.34 or later:
#
#   package.sh DIRECTORY     writes into this directory, with VERSION from scripts/version.sh:
#
#   fermyzhal_VERSION_amd64.deb               for Debian, below /usr, if dpkg-deb is installed. It conflicts with the package kyua. Its
#                                             program is stripped.
#   fermyzhal-VERSION-linux-x86_64.tar.gz     to be unpacked below /usr/local: tar -C /usr/local --strip-components=1 -xzf FILE
#   SHA256SUMS                                their hashes
#
# The program is the one that kyua.sh runs. DEBFULLNAME and DEBEMAIL must name the maintainer of the package for Debian, and HOMEPAGE may
# name its page. All files get the time SOURCE_DATE_EPOCH, or else the first day of the month that CHANGELOG.md has for the version, so
# two checkouts of one commit give the same bytes. Packages of two commits have two versions, of which the later commit has the later one.
# Without git the version is that of CHANGELOG.md. Exits with 0 if all is done.
set -eu -o pipefail
umask 022
top=$(cd "$(dirname "$0")/.." && pwd)
. "$top/scripts/sources.sh"
case $#:${1-} in
  1:-* | 0:*) explain "${@:-}" ;;
  1:*) ;;
  *) explain "$@" ;;
esac
if ! command -v dpkg-deb > /dev/null; then
  echo 'package.sh: there is no dpkg-deb, so no package for Debian is made' >&2
elif [ -z "${DEBFULLNAME-}" ] || [ -z "${DEBEMAIL-}" ]; then
  echo 'package.sh: DEBFULLNAME and DEBEMAIL must name the maintainer of the package for Debian' >&2
  exit 3
fi
mkdir -p "$1"
into=$(cd "$1" && pwd)
version=$("$top/scripts/version.sh")
read -r section month < <(sed -n 's/^## \([0-9][0-9.]*\) (\(.*\))$/\1 \2/p' "$top/CHANGELOG.md")
SOURCE_DATE_EPOCH=${SOURCE_DATE_EPOCH:-$(LC_ALL=C date -u -d "1 $month" +%s)}
export SOURCE_DATE_EPOCH
room=$(mktemp -d)
trap 'rm -rf "$room"' EXIT

# stage ROOT PREFIX: installs all files below a root, with the copyright file of a package.
stage() {
  DESTDIR=$1 "$top/install.sh" "$2" > "$room/log"
  mkdir -p "$1$2/share/doc/fermyzhal"
  {
    echo 'Fermyzhal, a proved reimplementation of Kyua.'
    echo
    echo 'There is no licence yet: all rights are reserved, and the owner of the repository decides.'
  } > "$1$2/share/doc/fermyzhal/copyright"
}

# pack DIRECTORY NAME: prints a compressed tarball of NAME in DIRECTORY, with the same bytes for the same files.
pack() {
  tar --sort=name --owner=0 --group=0 --numeric-owner --mtime="@$SOURCE_DATE_EPOCH" -C "$1" -cf - "$2" | gzip -9n
}

make_tarball() {
  local name=fermyzhal-$version-linux-x86_64
  stage "$room/tree" /usr/local
  mv "$room/tree/usr/local" "$room/$name"
  # install.sh replaces and removes the unpacked files by this list. It contains only the directories that belong to this program.
  (cd "$room/$name" && find . -type f -printf '%P\n' -o -type d -printf '%P/\n') | LC_ALL=C sort |
    grep -E '[^/]$|^(libexec/kyua-tools|share/kyua|share/doc/fermyzhal)/' > "$room/list"
  mv "$room/list" "$room/$name/share/kyua/installed"
  pack "$room" "$name" > "$into/$name.tar.gz"
}

# Prints the newest section of CHANGELOG.md in Debian's format.
debian_changelog() {
  printf 'fermyzhal (%s) unstable; urgency=medium\n\n' "$version"
  sed -n "/^## $section /,/^## /s/^- /  * /p" "$top/CHANGELOG.md" | fold -s -w 76 | sed -e 's/^[^ ]/    &/' -e 's/ *$//'
  printf '\n -- %s <%s>  %s\n' "$DEBFULLNAME" "$DEBEMAIL" "$(LC_ALL=C date -u -R -d "@$SOURCE_DATE_EPOCH")"
}

make_deb() {
  local root=$room/deb size
  stage "$root" /usr
  # Debian keeps its own list of installed files.
  rm "$root/usr/share/kyua/installed"
  # Debian's zsh reads the completions of packages from another directory.
  mv "$root/usr/share/zsh/site-functions" "$root/usr/share/zsh/vendor-completions"
  debian_changelog > "$root/usr/share/doc/fermyzhal/changelog"
  gzip -9n "$root"/usr/share/man/man[15]/* "$root/usr/share/doc/fermyzhal/changelog"
  strip -R .comment "$root/usr/bin/kyua" || echo 'package.sh: the program in the package for Debian is not stripped' >&2
  size=$(find "$root/usr" -type f -printf '%s\n' -o -printf '1\n' | awk '{ size += int(($1 + 1023) / 1024) } END { print size }')
  mkdir "$root/DEBIAN"
  cat > "$root/DEBIAN/control" <<CONTROL
Package: fermyzhal
Version: $version
Architecture: amd64
Maintainer: $DEBFULLNAME <$DEBEMAIL>
Installed-Size: $size
Depends: libc6 (>= 2.34)
Recommends: sqlite3
Suggests: atf-sh, xsltproc
Conflicts: kyua${HOMEPAGE:+
Homepage: $HOMEPAGE}
Section: non-free/devel
Priority: optional
Description: test runner with ATF, TAP and plain test programs
 The command kyua, a reimplementation of the Kyua test runner. Every function
 is proved safe, and nearly each to do what its contract says; most of the
 others only touch the host's files and processes. It runs test programs in
 any language, records their results in an SQLite file, and reports them as
 text or JUnit XML.
CONTROL
  (cd "$root" && find usr -type f | LC_ALL=C sort | xargs -d '\n' md5sum) > "$room/md5sums"
  mv "$room/md5sums" "$root/DEBIAN"
  dpkg-deb --root-owner-group -b "$root" "$into/fermyzhal_${version}_amd64.deb" > "$room/log"
}

make_tarball
if command -v dpkg-deb > /dev/null; then make_deb; fi
(cd "$into" && sha256sum fermyzhal[-_]"$version"[-_]* > SHA256SUMS && cat SHA256SUMS)
