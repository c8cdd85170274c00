#!/bin/sh
# recipes.sh PROGRAM [--write]: runs the recipes of docs/RECIPES.md with a built program, and ends
# with 0 where they print what stands there. Recipes whose Python packages aren't there are left
# out, and this is said. With --write what they print is written to the page.
checks=$(dirname "$(readlink -f "$0")")
more='[--write]'
. "$checks/begin.sh"
mkdir path
for tool in "$checks"/../tools/dta-*; do ln -s "$(realpath "$tool")" path; done
ln -s "$program" path/dta
ln -s "$(realpath "$checks/../examples")" examples
PATH=$folder/path:$PATH
/usr/bin/python3 "$checks/recipes.py" "$checks/../docs/RECIPES.md" "$@" ||
    fails 'docs/RECIPES.md'
[ ! -e delay_triangle.png ] || [ "${1:-}" != --write ] ||
    cp delay_triangle.png "$checks/../docs/pictures"
end 'the recipes print what stands there'
