// Numbers: `ematch` knows no sums, so what needs them is not verified by it.
// z3:     Copies verified, Counts verified, Misses error
// ematch: Copies verified, Counts error, Misses error

function double(int) returns (int);
axiom (forall n: int :: {double(n)} double(n) == n + n);

procedure Copies(n: int) returns (m: int)
  ensures double(m) == double(n);
{
  m := n;
}

procedure Counts(n: int) returns (m: int)
  requires n >= 0;
  ensures m == n;
{
  m := 0;
  while (m < n)
    invariant m <= n;
  {
    m := m + 1;
  }
}

// Three times is not double.
procedure Misses(n: int) returns (m: int)
  ensures m == double(n);
{
  m := n + n + n;
}
