#!/usr/bin/env bash
# Installs the peers of the benchmark from Debian's packages, those that are missing. Needs root only if there is one.
set -eu

packages=(
  librust-serde-json-dev                                  # strings and JSON8
  librust-csv-dev                                         # TSV8
  libsimdjson-dev rapidjson-dev libyajl-dev libcjson-dev  # JSON8
  g++ binutils                                            # compile the C and C++ ones
  gcc clang                                               # compile the C file
  valgrind                                                # counts instructions
)

missing=()
for package in "${packages[@]}"; do
  [ "$(dpkg-query -W -f '${db:Status-Status}' "$package" 2>/dev/null)" = installed ] || missing+=("$package")
done
if [ ${#missing[@]} -gt 0 ]; then
  apt-get update
  DEBIAN_FRONTEND=noninteractive apt-get install -y --no-install-recommends "${missing[@]}"
fi
echo "peers installed: ${packages[*]}"
