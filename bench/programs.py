"""The sets of programs that inputs of the benchmarks are made of."""

MOVE = """table t 1;
program Move(a, b, c, v) {
  let x = get t[a] else 0;
  let y = get t[b] else 0;
  let z = get t[c] else 0;
  put t[a] = x - v;
  put t[b] = y + v;
  keep t[c];
  let w = get t[a] else 0;
  reply w + z;
}
"""

TRANSFER = """table t 1;
program Transfer(a, b, v) {
  let x = get t[a] else 0;
  put t[a] = x - v;
  let y = get t[b] else 0;
  put t[b] = y + v;
}
"""

RANGES = """table t 1;
program Look(a, b) {
  let n = count t[a..b];
  let s = sum t[a..b];
  reply n;
  reply s;
}
program Set(k, v) {
  put t[k] = v;
}
"""
