// A heap as a term, with the axioms of reads and updates.
// z3:     Swaps verified, Keeps verified, Aliases error
// ematch: Swaps verified, Keeps verified, Aliases error

type Heap;
type Reference;
type Value;
function read(Heap, Reference) returns (Value);
function update(Heap, Reference, Value) returns (Heap);
axiom (forall h: Heap, r: Reference, v: Value :: {update(h, r, v)} read(update(h, r, v), r) == v);
axiom (forall h: Heap, r: Reference, v: Value, s: Reference :: {read(update(h, r, v), s)}
  r == s || read(update(h, r, v), s) == read(h, s));

procedure Swaps(before: Heap, a: Reference, b: Reference) returns (after: Heap)
  ensures read(after, a) == read(before, b) && read(after, b) == read(before, a);
{
  after := update(before, a, read(before, b));
  after := update(after, b, read(before, a));
}

procedure Keeps(before: Heap, a: Reference, other: Reference, v: Value) returns (after: Heap)
  requires a != other;
  ensures read(after, other) == read(before, other);
{
  after := update(before, a, v);
  after := update(after, a, read(before, a));
}

// The two may be one.
procedure Aliases(before: Heap, a: Reference, b: Reference, v: Value, w: Value) returns (after: Heap)
  ensures read(after, a) == v;
{
  after := update(before, a, v);
  after := update(after, b, w);
}
