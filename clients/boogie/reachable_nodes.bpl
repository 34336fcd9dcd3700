// Edges of a graph that are transitive, and a walk along them.
// z3:     Joins verified, Walks verified, Returns error
// ematch: Joins verified, Walks verified, Returns error

type Node;
function reaches(Node, Node) returns (bool);
axiom (forall x, y, z: Node :: {reaches(x, y), reaches(y, z)} reaches(x, y) && reaches(y, z) ==> reaches(x, z));

procedure Joins(a: Node, b: Node, c: Node, d: Node)
  requires reaches(a, b) && reaches(b, c) && reaches(c, d);
  ensures reaches(a, d);
{
}

procedure Walks(start: Node) returns (here: Node)
  ensures here == start || reaches(start, here);
{
  var next: Node;
  here := start;
  while (*)
    invariant here == start || reaches(start, here);
  {
    havoc next;
    assume reaches(here, next);
    here := next;
  }
}

// An edge need not lead back.
procedure Returns(a: Node, b: Node, turns: bool) returns (here: Node)
  requires reaches(a, b);
  ensures reaches(b, here);
{
  here := a;
  if (turns) { here := b; }
}
