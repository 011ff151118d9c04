#!/usr/bin/env bash
# Tries archives that `ar` makes of the samples:  bash tools/archives.sh PROGRAM
#
# After a `+`, each archive must give the image of the same modules as files, and a map that differs only in the files that it
# names. A thin archive, and an archive without a `+` before it, must be refused. The last line is 'N passed, N failed'; the
# status is 0 if nothing failed.
set -u
: "${1:?the built program is missing: bash tools/archives.sh PROGRAM}"
program=$(readlink -f "$1")
top=$(cd "$(dirname "$0")/.." && pwd)
work=$(mktemp -d) || exit 1
trap 'rm -rf "$work"' EXIT
cp "$top"/examples/*.695 "$top"/examples/board.toml "$work"
cd "$work" || exit 1
long=a_module_whose_name_is_longer_than_sixteen_bytes.695
cp lib.695 "$long"
# Of these two modules, one has an odd length, so that padding follows it.
"$program" link --name ab -o two.695 spare.695
"$program" link --name abc -o three.695 spare.695
passed=0 failed=0

check() {
  local what=$1
  shift
  if "$@"; then
    passed=$((passed + 1))
  else
    failed=$((failed + 1))
    echo "FAILED: $what"
  fi
}

# The archive after the `+` does the same as these members.
same() {
  local archive=$1
  shift
  "$program" dump --plan board.toml startup.695 main.695 + "$archive" > archived &&
    "$program" dump --plan board.toml startup.695 main.695 + "$@" > plain && cmp archived plain &&
    "$program" map --plan board.toml startup.695 main.695 + "$archive" > archived &&
    "$program" map --plan board.toml startup.695 main.695 + "$@" > plain &&
    cmp <(sed 's/^\(module .*\) file .*/\1/' archived) <(sed 's/^\(module .*\) file .*/\1/' plain)
}

# The map names the member as the file of the third module, and file 2 as its number.
names() {
  "$program" map --plan board.toml startup.695 main.695 + "$1" | grep '^module 2 ' | grep -qF " file 2: $2"
}

# The program ends with status 1 and this line.
refuses() {
  local line=$1 told
  shift
  told=$("$program" "$@" 2>&1 > printed)
  [ $? = 1 ] && [ ! -s printed ] && [ "$told" = "$line" ]
}

ar rcD short.a spare.695 lib.695
check "members with short names" same short.a spare.695 lib.695
check "the name of a member" names short.a '"short.a(lib.695)"'
ar rcD long.a spare.695 "$long"
check "members with long names" same long.a spare.695 "$long"
check "the long name of a member" names long.a "\"long.a($long)\""
ar rcD padded.a two.695 three.695 lib.695
check "members of odd and even lengths" same padded.a two.695 three.695 lib.695
ar qcD twice.a lib.695 lib.695
check "a member twice" same twice.a lib.695 lib.695
ar rcsD table.a spare.695 lib.695
check "a table of symbols" same table.a spare.695 lib.695
printf '!<arch>\n/               0           0     0     0       4         `\n\0\0\0\0' > made.a
tail -c +9 short.a >> made.a
check "a table of symbols with contents" same made.a spare.695 lib.695
printf '!<arch>\n' > empty.a
"$program" dump --plan board.toml startup.695 main.695 + empty.a lib.695 > archived
"$program" dump --plan board.toml startup.695 main.695 + lib.695 > plain
check "an archive without members" cmp archived plain
ar rcTD thin.a lib.695
check "a thin archive" refuses 'refused: file 2 at 0: BadHeader' dump --plan board.toml startup.695 main.695 + thin.a
check "an archive before the +" refuses 'refused: file 2 at 0: BadHeader' dump --plan board.toml startup.695 main.695 short.a
check "an archive for check" refuses 'refused: file 0 at 0: BadHeader' check short.a
check "an archive for dump" refuses 'refused: file 0 at 0: BadHeader' dump short.a

# What is wrong in an archive is named with its offset from the start. The first entry has 136 bytes of contents, the second 523.
bad() {
  local where=$1
  shift
  refuses "refused: file 1 at $where" dump --plan board.toml startup.695 + "$@"
}

head -c -2 short.a > cut.a
check "an archive that is cut off" bad "204: BadArchive" cut.a
sed 's/^\(.*\) 136 \(.*\)$/\1 13x \2/' short.a > size.a
check "a size that is none" bad "8: BadArchive" size.a
(printf '!<arch>\n%-16s%-32s%-10s`\n' x.o/ '' 135 && head -c 135 spare.695) > member.a
check "a member that is cut off" bad "203: Truncated" member.a
(printf '!<arch>\n%-16s%-32s%-10s`\n' x.o/ '' 523 && cat lib.695 && printf '%-16s%-32s%-10s`\n' y.o/ '' 136 && cat spare.695) > padding.a
check "no padding" bad "592: BadArchive" padding.a
(printf '!<arch>\n%-16s%-32s%-10s`\n' // '' 4 && printf 'a.o/' && printf '%-16s%-32s%-10s`\n' /4 '' 523 && cat lib.695) > named.a
check "a long name at the end" names named.a '"named.a()"'
sed 's|^a.o//4 |a.o//5 |' named.a > past.a
check "a long name past the end" bad "72: BadArchive" past.a
"$program" explain dump --plan board.toml startup.695 + cut.a > told
check "explain names the archive" grep -qxF 'file 1: "cut.a"' told
(printf '%-16s%-32s%-10s`\n' x.o/ '' 136 && cat spare.695) > entries
for _ in {1..16}; do
  cat entries entries > twice && mv twice entries
done
(printf '!<arch>\n' && cat entries) > many.a
check "too many modules" refuses 'refused: TooManyModules 65538' dump --plan board.toml startup.695 main.695 + many.a
echo "$passed passed, $failed failed"
[ "$failed" = 0 ]
