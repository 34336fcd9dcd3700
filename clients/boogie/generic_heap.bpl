// A heap with fields of several types, as a map over all of them, with the types' own axioms.
// z3:     Links verified, Frames verified, Breaks error
// ematch: Links verified, Frames verified, Breaks error

type Reference;
type Field a;
type Heap = <a>[Reference, Field a]a;
const unique next: Field Reference;
const unique owner: Field Reference;
const null: Reference;
var heap: Heap;
function good(Heap) returns (bool);
axiom (forall h: Heap :: {good(h)} good(h) ==> h[null, next] == null);

procedure Links(a: Reference, b: Reference)
  modifies heap;
  ensures heap[a, next] == b && heap[a, owner] == old(heap)[a, owner];
{
  heap[a, next] := b;
}

procedure Frames(a: Reference, b: Reference)
  requires good(heap) && a != null;
  modifies heap;
  ensures heap[null, next] == null;
{
  heap[a, next] := b;
}

// The one that is changed may be the null reference.
procedure Breaks(a: Reference, b: Reference)
  requires good(heap);
  modifies heap;
  ensures heap[null, next] == null;
{
  heap[a, next] := b;
}
