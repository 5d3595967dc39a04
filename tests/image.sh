#!/bin/sh
# After host/build.sh, which makes the archives. The C header, the image's C functions, those that have names and those over lists: the header is what the crates export, and
# C and C++ compilers take it with warnings as errors; the example in its head runs; libhypergroup.a has every function; tests/image.c, tests/names.c and tests/lists.c run
# over it and over the small archives, linked in either order. Last line 'N passed, M failed'.
set -eu
cd "$(dirname "$0")/.."
. tools/machine.sh
to_build
command -v g++ >/dev/null 2>&1 || tools/install.sh g++
python3 tools/header.py --check
strict="-Wall -Wextra -Wpedantic -Werror -Ihost"
compile="$CC -std=c99 $strict"
$compile -fsyntax-only -x c host/hypergroup.h
g++ -std=c++11 $strict -fsyntax-only -x c++ host/hypergroup.h

# The example, as it stands in the header. Document 01 says what the answers are: S3 has 6 elements, and compose(1,3) is 2; names are joined by " x ".
sed -n '/^ \* An example/,/^ \* What a caller owes/s/^ \*     //p' host/hypergroup.h >target/example.c
$compile -O1 -o target/example target/example.c -Ltarget/staticlib -lhypergroup
g++ -std=c++11 $strict -fsyntax-only -x c++ target/example.c
said=$($emulator target/example)
[ "$said" = "$(printf '6 elements, and 1 * 3 is 2\nS3 x S3')" ] || { echo "the header's example says: $said"; exit 1; }

# Whoever links the one archive has every function of the header.
{
    echo '#include "hypergroup.h"'
    echo 'typedef void (*any)(void);'
    echo 'int main(void) { any all[] = {'
    sed -n 's/^[a-z].* \(hg_[a-z_]*\)(.*/(any)\1,/p' host/hypergroup.h
    echo '}; return all[0] == 0; }'
} >target/every.c
exported=$(cat crates/*/src/*.rt | grep -c '^pub extern "C" fn')
[ "$(grep -c hg_ target/every.c)" -eq "$exported" ] || { echo "target/every.c does not name all $exported functions"; exit 1; }
$compile -O0 -o target/every target/every.c -Ltarget/staticlib -lhypergroup

for archives in -lhypergroup '-lcapi_names -lcapi_builder -lcapi_factor_compose' '-lcapi_factor_compose -lcapi_builder -lcapi_names'; do
    $compile -O1 -o target/names_test tests/names.c -Ltarget/staticlib $archives
    $emulator target/names_test
done
for archives in -lhypergroup '-lcapi_lists -lcapi_lists_compose -lcapi_group -lcapi_factor -lcapi_factor_compose -lcapi_factor_build' '-lcapi_factor_build -lcapi_factor_compose -lcapi_factor -lcapi_group -lcapi_lists_compose -lcapi_lists'; do
    $compile -O1 -o target/lists_test tests/lists.c -Ltarget/staticlib $archives
    $emulator target/lists_test
done
for archives in -lhypergroup '-lcapi_image -lcapi_factor_compose -lcapi_factor_build' '-lcapi_factor_build -lcapi_factor_compose -lcapi_image'; do
    $compile -O1 -o target/image_test tests/image.c -Ltarget/staticlib $archives
    $emulator target/image_test
done
