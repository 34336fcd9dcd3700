// Boogie's own maps, for which it states the axioms itself, without triggers.
// z3:     Stores verified, Rotates verified, Clashes error
// ematch: Stores verified, Rotates verified, Clashes error

type Key;
type Value;
var table: [Key]Value;

procedure Stores(k: Key, v: Value)
  modifies table;
  ensures table[k] == v;
{
  table[k] := v;
}

procedure Rotates(a: Key, b: Key, c: Key)
  requires a != b && b != c && a != c;
  modifies table;
  ensures table[a] == old(table[b]) && table[b] == old(table[c]) && table[c] == old(table[a]);
{
  var first: Value;
  first := table[a];
  table[a] := table[b];
  table[b] := table[c];
  table[c] := first;
}

// The second key may be the first.
procedure Clashes(a: Key, b: Key, v: Value, w: Value)
  modifies table;
  ensures table[a] == v;
{
  table[a] := v;
  table[b] := w;
}
