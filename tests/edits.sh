#!/usr/bin/env bash
# Whether the prover refuses each must-fail edit in the function that it turns, and proves its control: of the crates that are named, or
# of all. First it tries itself on three tiny crates. Words go to tests/harness/edits.py. Last line: 'N passed, M failed'.
set -u
cd "$(dirname "$0")/.." || exit 1
. tests/harness/cases.sh

# edit CRATE NAME OLD NEW [SAME]: an edit of a line of a tiny crate, and its control
edit() {
  printf 'file: src/lib.rt\nold:     %s\nnew:     %s\n' "$3" "$4" > "$folder/crates/$1/must-fail/$2.edit"
  [ $# -lt 5 ] || printf 'same:     %s\n' "$5" >> "$folder/crates/$1/must-fail/$2.edit"
}

# answer CRATE FUNCTION PROOF: a proof of what a function returns
answer() {
  mkdir -p "$folder/crates/$1/proofs/$2"
  printf '%s\n' 'use Rattle.std.proofs.Common.{arith, refl}' "use Rattle.$1.proofs.$2.Goals as goal" '' 'pub returns : goal.returns' "returns c = $3" \
    > "$folder/crates/$1/proofs/$2/Answers.antt"
}

# says NAME LINE: what was said has this line
says() {
  if grep -qE -- "$2" "$folder/told"; then
    passed=$((passed + 1))
  else
    failed=$((failed + 1))
    echo "$1: no line is '$2' of $(cat "$folder/told")"
  fi
}

mkdir -p "$folder"/crates/{low,high,lost}/{src,must-fail}
printf 'low:\nhigh:\nlost:\n' > "$folder/crates.txt"
tee "$folder"/crates/{low,high,lost}/src/lib.rt < tests/harness/first_call/low.rt.txt > /dev/null
cat >> "$folder/crates/high/src/lib.rt" << 'END'

/// Two more.
pub fn second(count: u64) -> u64
    requires { count < 2 ^ 64 - 2 }
    ensures { result ≡ count + 2 }
{
    next(next(count))
}

/// Three more.
pub fn third(count: u64) -> u64
    requires { count < 2 ^ 64 - 3 }
    ensures { result ≡ count + 3 }
{
    count + 3
}

/// What has a number.
pub trait Numbered {
    /// Its number.
    fn number(&self) -> u64
        ensures { result ≡ 4 };
}

/// The number 4.
pub struct Four;

impl Numbered for Four {
    fn number(&self) -> u64
    {
        4
    }
}
END
answer low next 'omega arith'
answer high third refl
edit low none_more 'count + 1' 'count + (1, 0).1' 'count + (1, 0).0'
edit low the_same 'count + 1' 'count + (1, 1).1' 'count + (1, 1).0'
edit low one_of_none 'count + 1' 'count + 0' 'count + 2'
edit high one_more 'next(next(count))' 'next(count) + (1, 0).1' 'next(count) + (1, 0).0'
edit high turned_round 'count + 3' '(3 + count, 3 + count).1' '(3 + count, 3 + count).0'
edit high five '    4' '    (4, 5).1' '    (4, 5).0'
edit lost not_there 'count + 3' 'count + (3, 4).1' 'count + (3, 4).0'
edit lost alone 'count + 1' 'count'
edit lost far_off 'count + 1' 'count + 0' 'count * 1'
tried() { python3 tests/harness/edits.py --top "$folder" --kept "$folder/kept" "$@" > "$folder/told" 2>&1; }
tried
says 'a wrong body is refuted by numbers' '^low: none_more: refuted: proofs/next_none_more/Answers\.antt:5: .*the goal does not follow'
says 'its control is proved' '^low: none_more_same: proved$'
says 'a body that means the same is not refused' '^low: the_same: NOT REFUSED$'
says 'a control that is wrong' '^low: one_of_none_same: CONTROL NOT PROVED: '
says 'a wrong body is refused' '^high: one_more: refused: src/lib\.rt:[0-9]+: it is not proved that what the function ensures holds'
says 'what is called has its contract, without a body' '^high: one_more_same: proved$'
says 'a proof that does not fit refuses what means the same' '^high: turned_round: refused: proofs/third_turned_round/Answers\.antt:'
says 'such an edit fails by its control' '^high: turned_round_same: CONTROL NOT PROVED: '
says 'a method of a trait is refused in its place' '^high: five: refused: src/lib\.rt:4[0-9]: '
says 'so is its control proved' '^high: five_same: proved$'
says 'an edit that is not made' '^lost: not_there: BAD EDIT: '
says 'an edit without a control' '^lost: alone: BAD EDIT: '
says 'a control of another shape' '^lost: far_off: BAD EDIT: '
says 'what is not as it should be fails' '^9 passed, 6 failed$'
rm "$folder"/crates/low/must-fail/{the_same,one_of_none}.edit
tried low
sed -i 's/refuted/kept/' "$folder"/kept/*
tried low
says 'what was told is kept' '^low: none_more: kept: '
echo '// One line more.' >> "$folder/crates/low/src/lib.rt"
tried low
says 'what is kept is of the text that was tried' '^low: none_more: refuted: '

PYTHONPATH=tests/harness python3 > "$folder/told" << 'END'
from edits import Edit, Goal, judged
print(judged(Edit("late", None, 0, 0, "", False), [Goal("proofs/f", 1, "`grind` stopped at its own limit")], False)[0])
END
says 'a goal that is given up refuses nothing' '^late: NOT REFUSED, but given up: '

python3 tests/harness/edits.py "$@" | tee "$folder/told"
counts=$(tail -n 1 "$folder/told")
passed=$((passed + ${counts%% *}))
counts=${counts#*, }
failed=$((failed + ${counts%% *}))
echo "$passed passed, $failed failed"
[ "$failed" -eq 0 ] && [ "$passed" -gt 0 ]
