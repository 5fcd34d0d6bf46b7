#!/usr/bin/env bash
# Prints the version of this checkout, for packages and manual pages. It begins with the version of CHANGELOG.md, here 0.1, whose tag
# is v0.1:
#
#   0.1                     the commit with the tag
#   0.1+5.gHASH             the fifth commit after the tag, by git describe
#   0.1~1200.gHASH          a commit from which the tag can't be reached, and how many commits it has. It is older than 0.1.
#   0.1~1200.gHASH.dirty    a commit whose files were changed
#
# A later commit of a branch has a later version, as dpkg --compare-versions says. Without git, or in a directory that is no checkout, it
# prints the version of CHANGELOG.md, and says so on standard error. Exits with 2 if the history is shallow, since commits can't be
# counted then.
set -eu -o pipefail
top=$(cd "$(dirname "$0")/.." && pwd -P)
. "$top/scripts/sources.sh"
explain "$@"
version=$(sed -n '/^## \([0-9][0-9.]*\) .*/{s//\1/p;q;}' "$top/CHANGELOG.md")

# Runs git in the checkout. A directory above it may be a checkout of other files.
git_here() {
  GIT_CEILING_DIRECTORIES=${top%/*} git -C "$top" "$@" 2> /dev/null
}

if ! git_here rev-parse HEAD > /dev/null; then
  echo "version.sh: there is no git or no commit here, so the version is that of CHANGELOG.md: $version" >&2
  echo "$version"
  exit
fi
dirty=
git_here diff --quiet HEAD -- || dirty=dirty
if described=$(git_here describe --tags --match "v$version" --long --abbrev=12); then
  commits=${described#"v$version-"}
  # At the tag itself no commit is named.
  case $commits:$dirty in 0-*:) commits= ;; *) commits=+${commits/-/.} ;; esac
elif [ "$(git_here rev-parse --is-shallow-repository)" = true ]; then
  echo "version.sh: the history is shallow, so the version is not known: call git fetch --unshallow --tags" >&2
  exit 2
else
  commits="~$(git_here rev-list --count HEAD).g$(git_here rev-parse --short=12 HEAD)"
fi
echo "$version$commits${dirty:+.dirty}"
