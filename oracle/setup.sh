#!/bin/sh
# Copies the original sources from docs/src to their places beside the
# stand-ins, byte for byte. A file that is already there and the same is left
# alone, so that an unchanged tree is not compiled again.
set -eu
cd "$(dirname "$0")"
from=../docs/src/crates

put() { # put NEW PLACE: moves NEW to PLACE unless PLACE has the same bytes
    if cmp -s "$1" "$2"; then rm "$1"; else mv "$1" "$2"; fi
}

for f in hypergroup/src/action.rs hypergroup/src/group.rs hypergroup/src/subgroup_action.rs \
    hypergroup/src/coxeter/todd_coxeter.rs hypergroup/src/primitives/abstract_group.rs \
    hypergroup/src/primitives/builder.rs hypergroup/src/primitives/egg.rs \
    hypuz_util/src/ti/vec.rs
do
    cp "$from/$f" "crates/$f.new"
    put "crates/$f.new" "crates/$f"
done

# The Rust does not say where an enumeration ran out of room. A second copy of
# todd_coxeter.rs tells it: one call is put before the line that asks for a new
# element. Only the command `place` uses this copy.
coxeter=crates/hypergroup/src/coxeter
ask='let new_element = g.add_successor(element, generator)?;'
sed "s|$ask|crate::trace::ask(element.0, generator.0, g.factorization(element).len(), g.element_count());\n            &|" \
    $coxeter/todd_coxeter.rs > $coxeter/todd_coxeter_traced.new
if [ "$(grep -c 'crate::trace::ask' $coxeter/todd_coxeter_traced.new)" != 1 ]; then
    echo "setup.sh: the line to trace is not in todd_coxeter.rs once" >&2
    exit 1
fi
put $coxeter/todd_coxeter_traced.new $coxeter/todd_coxeter_traced.rs
