#!/usr/bin/env bash
# The fixed surface: the client in tests/surface names its calls with their types. It is compiled over the crates,
# without proofs, and is refused where it gives a call another type. Its files end in .rt.txt, since `rt ci` wants each
# .rt file in a crate that it checks. Last line: 'N passed, M failed'.
set -u
cd "$(dirname "$0")/.." || exit 1
. tests/harness/cases.sh
client=$folder/crates/surface

compile() {
  (cd "$client" && rt try 2>&1 < /dev/null)
}

# The crates as they stand, without what was built of them, and the client above them.
tar --exclude=out -c crates | tar -x -C "$folder"
mkdir -p "$client/src"
for file in tests/surface/*.rt.txt; do
  cp "$file" "$client/src/$(basename "$file" .txt)"
done
cp HANDLES "$folder"
{
  cat crates.txt
  echo 'surface: pmt_model pmt_text pmt_marks pmt_lines pmt_book pmt_recorder pmt_asserts pmt_findings pmt_trim pmt_workers pmt_report'
} > "$folder/crates.txt"

calls=$(cat tests/surface/*.rt.txt | grep -c 'let _: fn(')
if told=$(compile) && [[ $told == *'run=ended status=0'* ]]; then
  passed=$((passed + calls))
else
  failed=$((failed + 1))
  echo "a call has another type, or the client is not compiled; rt told: $told"
fi

# With one argument more, each of these calls is refused. rt tells no more than twenty faults.
sed -i 's/let _: fn(/let _: fn((), /' "$client"/src/{asserts,findings,trim,workers}.rt
changed=$(cat "$client"/src/*.rt | grep -c 'let _: fn((), ')
told=$(compile)
refused=$(grep -c 'error\[mismatched-types\]' <<< "$told")
passed=$((passed + refused))
if [ "$refused" -ne "$changed" ] || [ "$changed" -eq 0 ]; then
  failed=$((failed + 1))
  echo "of $changed calls with another type $refused are refused; rt told: $told"
fi

echo "$passed passed, $failed failed"
[ "$failed" -eq 0 ]
