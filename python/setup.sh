#!/usr/bin/env bash
# Makes python/.venv, an environment of the system's python3 that sees Debian's packages and the package tsb. It
# installs what is missing by apt-get, and is quick and quiet where nothing is. It works from any directory.
#
#   python/setup.sh && python/.venv/bin/python -m tsb
#   python/setup.sh panel       no more than these commands of tsb need, as panel and report
set -eu -o pipefail

here=$(cd "$(dirname "${BASH_SOURCE[0]}")" && pwd)
python=/usr/bin/python3
packages="python3 python3-numpy python3-pandas python3-tqdm"
declare -A more=([panel]="python3-aiohttp" [report]="python3-jinja2 python3-matplotlib" [sweep]="" [new]="" [test]=""
    [diff]="" [sheet]="python3-jinja2" [plan]="" [preempt]="" [oids]="" [utdf]="" [snmp]="python3-pysnmp4"
    [pull]="python3-pysnmp4"
    [sumo]="sumo sumo-tools"
    [tests]="python3-pytest python3-pytest-asyncio python3-pytest-xdist python3-hypothesis python3-mypy python3-dask python3-distributed
        python3-selenium chromium chromium-driver python3-pip-whl snmp")
for word in "${@:-${!more[@]}}"; do
    for it in $word; do
        [[ -v more[$it] ]] || { echo "python/setup.sh: there is no command $it: ${!more[*]}" >&2; exit 2; }
        packages+=" ${more[$it]}"
    done
done

# The packages that are not installed.
missing() {
    # shellcheck disable=SC2086
    { dpkg-query -W -f '${Package} ${Status}\n' $packages 2>&1 || true; } | sed -n \
        -e 's/^dpkg-query: no packages found matching //p' -e '/ok installed$/!s/ .*//p' | sort -u
}

absent=$(missing)
if [[ -n $absent ]]; then
    echo "installing:" $absent
    said=$(mktemp)
    trap 'rm -f "$said"' EXIT
    # shellcheck disable=SC2086
    if ! { apt-get update -q && DEBIAN_FRONTEND=noninteractive apt-get install -y -q --no-install-recommends \
            -o DPkg::Lock::Timeout=600 $absent; } > "$said" 2>&1; then
        cat "$said" >&2
        exit 1
    fi
fi

# The package is a distribution there too, so that what pyproject.toml lists for pytest is found.
whole='import pandas, tsb; from importlib.metadata import entry_points as of; of(group="pytest11")["tsb"]'
if ! "$here/.venv/bin/python" -c "$whole" 2> /dev/null; then
    rm -rf "$here/.venv"
    "$python" -m venv --system-site-packages --without-pip "$here/.venv"
    site=$(echo "$here"/.venv/lib/python3*/site-packages)
    echo "$here" > "$site/tsb.pth"
    mkdir "$site/tsb-0.dist-info"
    printf 'Metadata-Version: 2.1\nName: tsb\nVersion: 0\n' > "$site/tsb-0.dist-info/METADATA"
    "$python" - "$here/pyproject.toml" > "$site/tsb-0.dist-info/entry_points.txt" <<'END'
import pathlib, sys, tomllib
for group, names in tomllib.loads(pathlib.Path(sys.argv[1]).read_text())["project"]["entry-points"].items():
    print(f"[{group}]", *(f"{name} = {module}" for name, module in names.items()), sep="\n")
END
    "$here/.venv/bin/python" -c "$whole"
fi
