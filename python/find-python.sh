# shellcheck shell=sh
# What the scripts share that run Python: finding the one that Debian's packages are for, and where matplotlib keeps its fonts.

# Sets $python to the interpreter that $PURVELJ_PYTHON names, or where it names none to Debian's own, and says so where that
# doesn't serve. Another python3 that comes first on the search path doesn't see Debian's packages.
find_python() {
    if [ -n "${PURVELJ_PYTHON:-}" ]; then
        python=$PURVELJ_PYTHON
        serves && return 0
        echo "$1: PURVELJ_PYTHON names $python, which isn't a Python 3.11 or later" >&2
        return 1
    fi
    for python in /usr/bin/python3 /bin/python3; do
        serves && return 0
    done
    echo "$1: there is no Python 3.11 or later at /usr/bin/python3; set PURVELJ_PYTHON to one that has numpy, scipy," \
        "astropy, astroplan, matplotlib and rich" >&2
    return 1
}

# Whether $python is a Python 3.11 or later.
serves() {
    "$python" -c 'import sys; sys.exit(sys.version_info < (3, 11))' 2>/dev/null
}

# Has matplotlib keep its list of fonts in a folder of this user's own where there is no home to keep it in: else it would make a
# folder at each start, say so, and leave it there where it is killed.
keep_fonts() {
    [ -n "${MPLCONFIGDIR:-}" ] || [ -w "${HOME:-/nonexistent}" ] && return
    fonts=$(dirname "$(mktemp -u)")/purvelj-matplotlib-$(id -u)
    mkdir -m 700 "$fonts" 2>/dev/null
    # Another user may have made it first, or a link there.
    [ -d "$fonts" ] && [ -O "$fonts" ] && [ ! -L "$fonts" ] && export MPLCONFIGDIR="$fonts"
}

# Prints those of the modules that $python doesn't have.
missing_modules() {
    "$python" -P - "$@" <<'PYTHON'
import importlib.util
import sys

print(*(name for name in sys.argv[1:] if importlib.util.find_spec(name) is None))
PYTHON
}
