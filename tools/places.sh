#!/bin/sh
# Lists the places in src/ at which a newer form may stand, point by point as docs/DESIGN-PASS.md has them.
# Run at the repository's top, or over another folder: tools/places.sh [FOLDER]
cd "${1:-.}" || exit 1

# places TITLE PATTERN: the lines of src/ that match, and how many there are
places() {
    echo "== $1"
    grep -rnE -e "$2" crates/*/src | sort
    echo "-- $(grep -rhE -e "$2" crates/*/src | wc -l)"
}

places '1 enums' '^ *(pub )?enum '
places '1 options and flags by hand' '^ *None$|\{ None \}|None => None|unreachable|else \{ 0 \}|unwrap_or\(0\)|-> bool|Result<Result|=> false|=> true'
places '1 numbers for kinds' 'fn (number\(self|mark\(|printed)|const MARK'
echo '== 2 functions of one name in one crate, those of traits among them'
for crate in crates/*/src; do
    grep -rhoE 'fn [a-z_0-9]+' "$crate" | sort | uniq -c | awk -v c="$crate" '$1 > 1 { print c, $3, $1 }'
done >/tmp/places.$$
cat /tmp/places.$$
echo "-- $(wc -l </tmp/places.$$)"
rm -f /tmp/places.$$
places '2 names that differ in a number or a field' 'fn [a-z_]*(_[0-9]+|_bytes|_residues|_examples|count)\('
places '3 loops over a range or with a count' 'for .* in .*\.\.|enumerate\(|while |\+= 1|saturating_add\(1\)'
places '4 casts, comparisons and printing by hand' ' as (u8|u16|u32|u64|usize)\b|match fault.cause|anyhow!\(|number < ORDER'
places '5 parameters and facts that travel together' '^ *line: u32,$|\(line: u32|mark: u32,$|order: u64|(heap|alloc): Global|requires (readable|below)|read\(1, '
places '6 lengths beside buffers' '-> (Option|Result)<usize|\[0u(8|32); [0-9]+\]|Vec<u8>|&mut String'
places '7 arms that only call a function' '=> *[a-z_]+(::<.*>)?\(.*\),?$'
echo '== 8 lines of answers and invariants'
for crate in crates/*; do
    echo "$crate $(find "$crate/proofs" -mindepth 2 -name '*.antt' -exec cat {} + | wc -l) $(find "$crate/proofs" -maxdepth 1 -name '*.antt' -exec cat {} + | wc -l)"
done
