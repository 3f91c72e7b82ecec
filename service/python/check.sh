#!/bin/sh
# check.sh [PYTEST ARGUMENTS]: on Debian or Ubuntu, installs what the tests need, builds the wheel from the proved library, installs it
# in an environment of its own under target/, and runs the tests against it. The library is built by rt where it isn't there yet.
set -e
cd "$(dirname "$0")"
packages="gcc libc6-dev python3-venv python3-pip python3-setuptools python3-wheel python3-numpy python3-scipy python3-shapely
python3-geopandas python3-fiona python3-meshio python3-netcdf4 python3-matplotlib python3-pytest"
if ! dpkg -s $packages > /dev/null 2>&1; then
    root=$([ "$(id -u)" = 0 ] || echo sudo)
    $root apt-get update
    $root apt-get install -y --no-install-recommends $packages
fi
[ -f "${DAQWIMAY_LIB:-../../crates/overlay_c/out}/liboverlay_c.a" ] || (cd ../../crates/overlay_c && rt lib)
home=../../target/python/tests
rm -rf $home
/usr/bin/python3 -m venv --system-site-packages $home
$home/bin/python -m pip wheel -q --no-index --no-build-isolation --no-deps -w $home/wheel .
$home/bin/python -m pip install -q --no-index --no-deps $home/wheel/*.whl
$home/bin/python -m pytest "$@"
