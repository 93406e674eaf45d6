#!/bin/bash
# Prints the places in the crates' sources that may be written in an older form than today's Rattle allows, point by point,
# and how many there are. What a pattern finds is a place to read, not a fault. Run it at the top of the repository.
cd "$(dirname "$0")/.." || exit 1

find_in() {
  local label=$1 pattern=$2
  shift 2
  local places
  places=$(grep -rnE --include=*.rt "$pattern" "$@" | grep -vE ':[0-9]+:\s*(//|ghost use|use )')
  local count=0
  [ -n "$places" ] && count=$(printf '%s\n' "$places" | wc -l)
  printf '%s: %s\n' "$label" "$count"
  [ -n "$places" ] && [ "${VERBOSE:-}" ] && printf '%s\n' "$places"
  return 0
}

src=$(ls -d crates/*/src)

echo "1. Own enums of known shape, flags with values beside them, numbers for kinds or refusals"
find_in "  enums" '^\s*(pub(\([a-z]+\))? )?enum ' $src
find_in "  refusals compared by number in a clause" 'ensures.*numbered ' $src
find_in "  numbers for kinds" 'const [A-Z_]*(TAG|KIND|STAGE|CODE): u' $src
find_in "  arms that give a number" '=> [0-9]+,' $src
find_in "  bool parameters and fields" '\b[a-z_]+: bool\b' $src

echo "2. Twins: names of functions that are defined twice or more"
grep -rhoE --include=*.rt '\bfn [a-z_]+' $src | sort | uniq -c | awk '$1 > 1 {print "  " $3 ": " $1}'

echo "3. Loops"
find_in "  for over a range" '\bfor [^;]* in [^;{]*\.\.' $src
find_in "  while" '^\s*while ' $src
find_in "  other for" '^\s*for [^;]* in [^.;{]*(\.[a-z_]+\([^)]*\))*[^.;{]*\{' $src

echo "4. Equality, order, copying, conversion and printing by hand"
find_in "  casts" '[])a-zA-Z0-9_}] as (u8|u16|u32|u64|usize)\b' $src
find_in "  functions that compare" 'fn (is_of|same_[a-z]+|is_held|eq|cmp)\b' $src
find_in "  functions that convert" 'fn (narrowed|note_in|number|number_of|digit_of|push_hex|digits)\b' $src
find_in "  functions that print text piece by piece" 'fn (put[a-z_]*|line_length|print_complaint)\b' $src

echo "5. Facts in the clauses of several functions"
grep -rhE --include=*.rt '^\s+requires' $src | sed -E 's/^ *requires ?[a-z_]* ?//; s/self\.(old|now)/self/g' | sort | uniq -c | awk '$1 > 1 {c = $1; $1 = ""; print "  " c " times" $0}'

echo "6. Buffers with a length beside them, parallel arrays, arrays indexed by hand"
find_in "  arrays in structs and bindings" '^\s*(pub(\([a-z]+\))? |let (mut )?)?[a-z_]+(: | = )\[[^];]+; [^]]+\]' $src
find_in "  places indexed by hand" '[a-z_)]\[[a-z0-9_. +*-]+( as usize)?\]' $src

echo "7. Switches on which step to run"
find_in "  matches on a stage or a step" 'match \*?(self\.stage|step|self) ' $src

echo "8. Proofs"
printf '  files: %s\n' "$(find crates -not -path '*/out/*' -path '*/proofs/*' -name '*.antt' | wc -l)"
printf '  lines: %s\n' "$(find crates -not -path '*/out/*' -path '*/proofs/*' -name '*.antt' -exec cat {} + | wc -l)"
printf '  answers and invariants: %s\n' "$(find crates -not -path '*/out/*' -path '*/proofs/*' \( -name Answers.antt -o -name Invariants.antt \) -exec grep -hE '^(abbrev )?pub ' {} + | wc -l)"
printf '  older words in clauses and definitions: %s\n' "$(grep -rhowE --include=*.antt --include=*.rt 'Decides|eqb|leb|ltb|cond|get_or' crates/*/src crates/*/specs | wc -l)"
