#!/usr/bin/env bash
# Measures decode against the same decoder in plain Rust: median times of several runs in turn, and peak memory.
set -euo pipefail
cd "$(dirname "$0")/../.."
work=$(mktemp -d)
trap 'rm -rf "$work"' EXIT
runs=${RUNS:-9}
(cd crates/decode && rt run -- --help >/dev/null)
rustc -O -C codegen-units=1 --edition 2021 -o "$work/baseline" benches/decode/baseline.rs
python3 benches/decode/capture.py "$work/capture"
crates/decode/out/decode "$work/capture" > "$work/ours"
"$work/baseline" "$work/capture" > "$work/theirs"
cmp "$work/ours" "$work/theirs"
echo "both programs write the same $(wc -c < "$work/ours") bytes for a capture of $(wc -c < "$work/capture") bytes"
python3 - "$runs" "$work" <<'P'
import os, statistics, subprocess, sys, time
runs, work = int(sys.argv[1]), sys.argv[2]
programs = {"decode": ["crates/decode/out/decode"], "plain Rust": [f"{work}/baseline"]}


def peak_of(words):
    """the largest memory of a run of its own, as the kernel tells it while the run lasts"""
    with open(os.devnull, "wb") as null:
        child = subprocess.Popen(words, stdout=null)
        most = 0
        while child.poll() is None:
            try:
                with open(f"/proc/{child.pid}/status") as status:
                    most = max([most] + [int(line.split()[1]) for line in status if line.startswith("VmHWM:")])
            except OSError:
                pass
            time.sleep(0.002)
        return most


times = {name: [] for name in programs}
peak = {}
for _ in range(runs):
    for name, words in programs.items():
        with open(os.devnull, "wb") as null:
            start = time.perf_counter()
            child = subprocess.Popen(words + [f"{work}/capture"], stdout=null)
            assert child.wait() == 0
            times[name].append(time.perf_counter() - start)
            peak[name] = max(peak.get(name, 0), peak_of(words + [f"{work}/capture"]))
for name in programs:
    print(f"{name}: median {statistics.median(times[name]) * 1000:.0f} ms of {runs} runs, peak memory {peak[name] / 1024:.1f} MiB")
print(f"ratio of the medians, decode to plain Rust: {statistics.median(times['decode']) / statistics.median(times['plain Rust']):.2f}")
P
