#!/bin/sh
# Makes the static library of the crate host, builds compare/host.c over it and include/soe.h, and runs that: a line for each
# check, exit status 1 where one differs. Then the same with the lines of C in four sections of README, whose exit status has
# to be 0.
set -eu
cd "$(dirname "$0")/.."
build="cc -std=c99 -Wall -Wextra -Werror -Iinclude"

tools/build host
$build compare/host.c target/staticlib/libhost.a -o target/staticlib/host
target/staticlib/host

for section in "The contracted quantity" "Instructions" "The real-time payment" "A test day"; do
    # From the section's first line "    #include" to the next one that is neither indented nor empty.
    awk -v heading="## $section" '/^## / { section = $0 == heading }
         section && /^    #include/ { taken = 1 }
         taken && !/^(    |$)/ { exit }
         taken { print substr($0, 5) }' README.md >target/staticlib/readme.c
    [ -s target/staticlib/readme.c ] || { echo "README.md has no lines of C in a section '$section'"; exit 1; }
    $build target/staticlib/readme.c target/staticlib/libhost.a -o target/staticlib/readme
    target/staticlib/readme || { echo "README's lines of C in '$section' ended with status $?"; exit 1; }
done
