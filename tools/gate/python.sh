#!/bin/sh
# Builds the package for Python over the library for C, installs it with pip and no network into a fresh environment,
# and runs its tests there: tools/gate/python.sh [FOLDER]. FOLDER has libecow.a and ecow.h, and is bin/ without it. The
# number of random edits is ECOW_EDITS, 3000 without it.
set -eu
cd "$(dirname "$0")/../.."
bin=${1:-bin}
python=${PYTHON:-python3}

skip() { # WHY
    echo "the package for Python was not tested: $1"
    tools/gate/counts.sh python.sh skipped
    exit 0
}

command -v "$python" > /dev/null || skip "this machine has no $python"
"$python" -c 'import sys; sys.exit(sys.version_info < (3, 11))' || skip "it needs Python 3.11 or later"
headers=$("$python" -c 'import sysconfig; print(sysconfig.get_path("include"))')
[ -f "$headers/Python.h" ] || skip "this machine has no headers of Python"
"$python" -c 'import ensurepip, venv' 2> /dev/null || skip "this machine has no pip"
set -- ${CC:-cc}
command -v "$1" > /dev/null || skip "this machine has no C compiler"
[ -f "$bin/libecow.a" ] || { echo "no $bin/libecow.a: \`make lib\` builds it"; exit 1; }

for file in python/examples/versions.py python/examples/versions.out; do
    case "$(cat python/README.md)" in
        *"$(cat $file)"*) ;;
        *) echo "python/README.md quotes another $file"; exit 1 ;;
    esac
done

work=$(mktemp -d)
trap 'rm -rf "$work"' EXIT
mkdir -p "$work/home/include" "$work/home/lib"
cp "$bin/ecow.h" "$work/home/include"
cp "$bin/libecow.a" "$work/home/lib"
export ECOW_HOME="$work/home"
# What the environment says of Python's paths is none of the tests'.
unset PYTHONPATH PYTHONHOME
"$python" -m venv "$work/venv"
run="$work/venv/bin/python"
install() { "$run" -m pip install --quiet --disable-pip-version-check --no-index "$@"; }

# What pip builds is the same, byte by byte, each time; a source distribution builds it alone too.
for time in first second; do
    "$run" -m pip wheel --quiet --disable-pip-version-check --no-index --no-deps -w "$work/$time" ./python
done
cmp "$work"/first/*.whl "$work"/second/*.whl
(cd python && "$run" -c 'import build_backend, sys; build_backend.build_sdist(sys.argv[1])' "$work")
(unset ECOW_HOME; install --target "$work/from_sdist" "$work"/ecow-*.tar.gz)
install ./python
version=$(cd "$work" && "$run" -c 'import ecow, importlib.metadata as m; assert m.version("ecow") == ecow.__version__
print(ecow.__version__)')
[ "$version" = "$(cat VERSION)" ] || { echo "the package is of version $version"; exit 1; }
"$run" -m zipfile -l "$work"/first/*.whl | sed '1d; s/ .*//' | sort > "$work/packed"
{
    git ls-files python/ecow | sed 's|^python/||'
    echo ecow/_core.abi3.so
    for file in METADATA RECORD WHEEL licenses/LICENSE-APACHE licenses/LICENSE-MIT; do
        echo "ecow-$version.dist-info/$file"
    done
} | sort | diff - "$work/packed" || { echo "the package has other files (>)"; exit 1; }

cp -r python/tests "$work/tests"
(cd "$work/tests" && "$run" -m unittest > "$work/log" 2>&1) || { cat "$work/log"; exit 1; }
"$run" python/examples/versions.py > "$work/out"
cmp "$work/out" python/examples/versions.out
"$run" python/examples/parts.py
# Each program of the page.
"$run" -c 'import re
for program in re.findall("```python\n(.*?)```", open("python/README.md").read(), re.S):
    exec(program, {})' > /dev/null
# What types are told holds of the package, and of what is written with it.
typed=
if command -v mypy > /dev/null; then
    (cd python && mypy --strict --cache-dir "$work/mypy" -p ecow) > "$work/types" || { cat "$work/types"; exit 1; }
    MYPYPATH=python mypy --strict --cache-dir "$work/mypy" python/examples/*.py python/tests/typed.py > "$work/types" || {
        cat "$work/types"
        exit 1
    }
    typed=", types by mypy"
fi
# What numpy reads and writes, where the interpreter has it.
beside=", without numpy"
numpy=$("$python" -c 'import numpy, pathlib; print(pathlib.Path(numpy.__file__).parents[1])' 2> /dev/null) || numpy=
if [ -n "$numpy" ]; then
    (cd "$work/tests" && PYTHONPATH=$numpy "$run" -m unittest -k numpy test_memory > "$work/log_numpy" 2>&1) &&
        ! grep -q skipped "$work/log_numpy" || { cat "$work/log_numpy"; exit 1; }
    beside=", beside numpy"
fi
# The random calls again with a module that sees memory that is read behind its end. The interpreter's own isn't freed.
checked=
asan=$(${CC:-cc} -print-file-name=libasan.so)
if [ -f "$asan" ]; then
    cp -r python/ecow "$work/ecow"
    rm -f "$work/ecow/_core.abi3.so"
    ${CC:-cc} -std=c11 -O1 -g -fsanitize=address -fPIC -shared -fvisibility=hidden -fwrapv -DPACKAGE_VERSION=\"0\" \
        -Iinclude -I"$headers" python/core/*.c c/ecow.c "$bin/libecow.a" -Wl,--exclude-libs,ALL \
        -o "$work/ecow/_core.abi3.so"
    (cd "$work/tests" && LD_PRELOAD=$asan ASAN_OPTIONS=detect_leaks=0:allocator_may_return_null=1 PYTHONMALLOC=malloc \
        PYTHONPATH=$work "$python" -m unittest test_hostile test_values > "$work/log_asan" 2>&1) || {
        cat "$work/log_asan"
        exit 1
    }
    checked=", hostile calls under AddressSanitizer"
fi
"$run" python/tests/speed.py 0.01 > "$work/speed" || { cat "$work/speed"; exit 1; }
tests=$(sed -n 's/^Ran \([0-9]*\) tests.*/\1/p' "$work/log")
tools/gate/counts.sh python.sh "$tests tests" "$(wc -l < "$work/packed") files"
echo "python: $tests tests of the installed package $version$typed$beside$checked"
