#!/usr/bin/env bash
# The tests of the original, and of the port against it, with Debian's `futures` in place of the stand-in. Not part of the gate.
#   real_futures.sh DIR SEED ..
# once for each seed. DIR is where these packages were unpacked (`apt-get download`, then `dpkg -x PACKAGE DIR`):
#   librust-futures-dev, librust-futures-{channel,core,io,sink,task,util}-dev, librust-pin-project-lite-dev, librust-pin-utils-dev
set -euo pipefail
host=$(cd "$(dirname "$0")" && pwd)
registry=$(cd "$1/usr/share/cargo/registry" && pwd)
shift
(($# > 0)) || { echo "no seed" >&2; exit 2; }

copy=$(mktemp -d)
trap 'rm -r "$copy"' EXIT
mkdir "$copy/host"
cp -r "$host"/{Cargo.toml,build.rs,benches,original,src,tests} "$copy/host"
ln -s "$host/../crates" "$host/../docs" "$copy"
cd "$copy/host"
rm -r original/stand-ins/futures
sed -i 's/^futures = .*/futures = { version = "0.3", default-features = false }/' original/Cargo.toml
mkdir .cargo
cat > .cargo/config.toml <<END
[source.crates-io]
replace-with = "debian"
[source.debian]
directory = "$registry"
END

export CI=true
export LPSPI_STATICLIB_DIR=${LPSPI_STATICLIB_DIR:-$host/../crates/c_api/out}
export LPSPI_ORIGINAL=${LPSPI_ORIGINAL:-$host/../../shared/docs/src/src/common/lpspi.rs}
cargo tree --offline --package original --depth 1
for seed; do
    LPSPI_SEED=$seed cargo test --release --offline --test original -- --show-output
done
