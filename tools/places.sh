#!/usr/bin/env bash
# Lists the lines of src/ that docs/DESIGN-PASS.md counts, point by point: tools/places.sh [COMMIT], or the working tree.
# A line is a candidate; which of them are places of a point is said on the page.
set -u
cd "$(dirname "$0")/.."
commit=${1:-}
find_lines() {
  git grep -nE "$2" $commit -- 'crates/*/src/*.rt' | sed -E "s/^${commit:-@}://" | grep -vE ':[0-9]+: *//' > /tmp/places.$$
  printf '%s: %s lines\n' "$1" "$(wc -l < /tmp/places.$$)"
  sed 's/^/    /' /tmp/places.$$
  rm -f /tmp/places.$$
}
find_lines '1 enums' '^ *(pub(\([a-z]+\))? )?enum '
find_lines '1 flags and numbers' '(-> (Option<)?u8|-> bool|[a-z_]+: (bool|Option<u8>)(,|\)))'
find_lines '2 constructors and readers by name' 'fn (new|check_[a-z]+|[a-z0-9]+_at|judge_[a-z]+|is_[a-z_]+|blank|joining|put|set_totals|put_totals)\b'
find_lines '3 loops' '^ *(while |loop |for [a-z_]+ in [^&]*\.\.)'
find_lines '4 comparisons and conversions' '(fn (compare|cmp|eq|clone|from|try_from|fmt|number|returned|to_[a-z_]+|of_[a-z_]+|first_by)\b|compare\()'
find_lines '4 arms that say over again' '(=> (None|Some\([a-z]+\.[a-z]+\)|Ok\(\(\)\)|Err\([a-z]+\)),?$|\.and\(Ok\(\(\)\)\)|=> (true|false),$)'
find_lines '5 facts that callers owe' '^ *requires '
find_lines '6 lengths beside, halving by hand' '((used|made): u(size|32)|low \+ |high - low)'
find_lines '7 switches and traits of one step' '(dyn |impl Fn|: fn\(|: OfferCall|OfferCall::[A-Z][a-z]+,$|trait )'
