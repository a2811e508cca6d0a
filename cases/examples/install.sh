# Installed to a folder by somebody whose own files nobody else may read, called there, and taken away again by its own
# tool. A file of somebody else stays, and what an earlier version has installed goes.
work=$(mktemp -d) && trap 'rm -rf "$work"' EXIT
mkdir -p "$work/place/share/egasim" && echo old >"$work/place/share/egasim/old"
printf '%.64s  share/egasim/old\nfolder  share/egasim\n' "$(sha256sum <"$work/place/share/egasim/old")" >"$work/place/share/egasim/FILES"
(umask 077 && dist/install "$work/place") | sed "s|$work|WORK|g; s/[0-9]* files/N files/"
find "$work/place" ! -type l ! -perm -o=r -o -name '*test*' -o -path '*/share/egasim*'
place=$work/place/bin
"$place/egasim" bound
"$place/egasim" --version | grep -c '^program'
"$place/egasim" questions gone.toml 2>&1
"$place/egasim-answer" gone.toml 2>&1
(cd "$work/place" && echo bin/* share/man/man1/* | fold -s -w 110)
grep -c . "$work/place/share/man/man1/egasim.1" | awk '$1 > 1000 { print "a manual page" }'
grep -A 1 '^.SH NAME' "$work/place/share/man/man1/egasim-partner.1"
completed() { bash -c '. "$0"; COMP_WORDS=("$@"); COMP_CWORD=$(($# - 1)); _egasim; echo "${COMPREPLY[@]}"' "$work/place/share/bash-completion/completions/egasim" "$@"; }
completed egasim run --c
completed egasim help p
for name in $(completed egasim help ''); do "$place/egasim" help "$name" >/dev/null || echo "$name isn't known"; done
touch "$place/mine"
"$work/place/lib/egasim/dist/install" "$work/other" | sed "s|$work|WORK|g; s/[0-9]* files/N files/"
diff -r -x FILES "$work/place" "$work/other" | sed "s|$work|WORK|g"
for folder in place other; do "$work/$folder/lib/egasim/dist/install" --remove "$work/$folder" | sed "s|$work|WORK|g"; done
cd "$work" && find . | sort
