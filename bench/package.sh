#!/usr/bin/env bash
# Makes a Debian package of the built program, its unit, the client in Python, the man page and the documents.
# Usage: bench/package.sh PROGRAM [FOLDER]. The package goes into FOLDER, by default the one where the command is given.
# It wants git, and of Debian dpkg, binutils and gzip. Where lintian is there, it has to be quiet about the package, or the status is 1.
set -eu
program=${1:-}
if [ ! -f "$program" ] || [ ! -x "$program" ]; then
  echo "bench/package.sh: no program at '$program'" >&2
  exit 2
fi
program=$(realpath "$program")
target=$(realpath "${2:-.}")
cd "$(dirname "$0")/.."
umask 022
folder=$(mktemp -d)
trap 'rm -rf "$folder"' EXIT
root=$folder/pequod
version=$(sed -n 's/^__version__ = "\(.*\)"$/\1/p' clients/python/pequod/__init__.py)
maintainer=${DEBFULLNAME:-$(git log -1 --format=%an)}" <"${DEBEMAIL:-$(git log -1 --format=%ae)}">"
library=$(objdump -T "$program" | grep -o 'GLIBC_[0-9.]*' | sort -Vu | tail -n 1)
# Files are of the last commit's time, so that the same commit and program make the same package.
SOURCE_DATE_EPOCH=$(git log -1 --format=%ct)
export SOURCE_DATE_EPOCH

# The program, and the unit of docs/OPERATING.md with the places that a package has.
install -D -m 755 "$program" "$root/usr/bin/pequod"
strip --strip-unneeded --remove-section=.comment --remove-section=.note "$root/usr/bin/pequod"
mkdir -p "$root/usr/lib/systemd/system" "$root/etc/pequod"
sed -n '/^\[Unit\]$/,/^```$/p' docs/OPERATING.md | sed '/^```$/d
  s|/usr/local/bin/|/usr/bin/|
  s|/etc/pequod/timeline.joins|/etc/pequod/pequod.joins|
  s|^Description=.*|&\nDocumentation=man:pequod(1)|' > "$root/usr/lib/systemd/system/pequod.service"
printf '%s\n' '# The joins that pequod.service declares first, one on each line, as:' \
  '# t|<user>|<time>|<poster> = check s|<user>|<poster> copy p|<poster>|<time>' \
  '# python3 -m pequod check /etc/pequod/pequod.joins says whether they are accepted.' > "$root/etc/pequod/pequod.joins"

# The client, the man page and the documents.
packages=$root/usr/lib/python3/dist-packages
mkdir -p "$packages"
git ls-files clients/python/pequod | while read -r file; do
  install -D -m 644 "$file" "$packages/${file#clients/python/}"
done
install -D -m 644 docs/pequod.1 "$root/usr/share/man/man1/pequod.1"
documents=$root/usr/share/doc/pequod
install -D -m 644 -t "$documents" docs/PROTOCOL.md docs/OPERATING.md docs/COOKBOOK.md
install -m 644 clients/python/README.md "$documents/CLIENT.md"
printf '%s\n' "Copyright $(git log -1 --format=%cd --date=format:%Y) the authors of Pequod." '' \
  'Its repository says under which terms it may be used.' > "$documents/copyright"
printf '%s\n\n%s\n\n -- %s  %s\n' "pequod ($version) unstable; urgency=medium" \
  "  * Built from commit $(git rev-parse --short=12 HEAD)." "$maintainer" "$(date -u -R -d "@$SOURCE_DATE_EPOCH")" > "$documents/changelog"
gzip -9 -n "$documents/changelog" "$root/usr/share/man/man1/pequod.1"

mkdir "$root/DEBIAN"
printf '%s\n' /etc/pequod/pequod.joins > "$root/DEBIAN/conffiles"
(cd "$root" && find usr -type f -print0 | LC_ALL=C sort -z | xargs -0 md5sum) > "$root/DEBIAN/md5sums"
cat > "$root/DEBIAN/control" <<CONTROL
Package: pequod
Version: $version
Architecture: $(dpkg --print-architecture)
Maintainer: $maintainer
Installed-Size: $(du -sk --exclude=DEBIAN "$root" | cut -f1)
Depends: libc6 (>= ${library#GLIBC_}), python3 (>= 3.9)
Section: database
Priority: optional
Description: ordered key-value cache with cache joins
 Pequod keeps pairs in memory, and declared joins say how other pairs follow
 from them: a timeline from subscriptions and posts, a counter from votes.
 Reads of computed keys answer what evaluating the joins afresh gives.
 .
 The package has the server, a systemd unit, which is not started by itself,
 and the client in Python with its commands.
CONTROL
find "$root" -print0 | xargs -0 touch -h -d "@$SOURCE_DATE_EPOCH"
package=$target/pequod_${version}_$(dpkg --print-architecture).deb
dpkg-deb --root-owner-group --build "$root" "$package"
if command -v lintian > /dev/null; then
  lintian --allow-root "$package" > "$folder/told" 2>&1 || true
  if [ -s "$folder/told" ]; then
    cat "$folder/told"
    exit 1
  fi
else
  echo "bench/package.sh: lintian is not there, and was not asked" >&2
fi
