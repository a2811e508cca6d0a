# The packages, made twice in other circumstances: the same bytes, all that is installed, and what is refused.
# Without dpkg-deb there is nothing to try.
command -v dpkg-deb >/dev/null || exec cat cases/examples/expected/package.out
work=$(mktemp -d) && trap 'rm -rf "$work"' EXIT
export SOURCE_DATE_EPOCH=1700000000
told() { sed "s|$work|WORK|; s/\([-_]\)[0-9][0-9.]*\([-~]dev\)*\(~own\)*-/\1VERSION-/"; }
dist/package "$work/one" | told
(umask 077 && TZ=Asia/Tokyo dist/package "$work/two" >"$work/said") && diff -r "$work/one" "$work/two" && echo 'the same bytes'
dist/package "$work/two" 2>&1 | told
SOURCE_DATE_EPOCH=now dist/package "$work/three" 2>&1
mkdir "$work/archive" "$work/debian" && tar -xzf "$work"/one/*.tar.gz -C "$work/archive" --strip-components=1
dpkg-deb -x "$work"/one/*.deb "$work/debian" && (cd "$work/debian/usr/share/man/man1" &&
  for page in *.gz; do zcat "$page" >"${page%.gz}"; done && rm ./*.gz)
diff -r "$work/archive" "$work/debian/usr" | sed "s|$work|WORK|"
(cd "$work/debian" && dpkg-deb -I "$work"/one/*.deb md5sums | grep -v '\.gz$' | md5sum -c --quiet && echo 'the sums are right')
dpkg --compare-versions "$(dpkg-deb -f "$work"/one/*.deb Version)" gt 2.4.5-1 && echo 'a later version'
"$work/debian/usr/bin/egasim" bound
"$work/archive/lib/egasim/dist/install" --remove "$work/archive" | sed "s|$work|WORK|"
ls "$work"
