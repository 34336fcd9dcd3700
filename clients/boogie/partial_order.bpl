// A partial order with least upper bounds.
// z3:     Bounds verified, Commutes verified, Grows verified, Compares error
// ematch: Bounds verified, Commutes verified, Grows verified, Compares error

type Point;
function below(Point, Point) returns (bool);
function join(Point, Point) returns (Point);
function step(Point) returns (Point);
axiom (forall x: Point :: {below(x, x)} below(x, x));
axiom (forall x, y: Point :: {below(x, y), below(y, x)} below(x, y) && below(y, x) ==> x == y);
axiom (forall x, y, z: Point :: {below(x, y), below(y, z)} below(x, y) && below(y, z) ==> below(x, z));
axiom (forall x, y: Point :: {join(x, y)} below(x, join(x, y)) && below(y, join(x, y)));
axiom (forall x, y, z: Point :: {below(x, z), join(x, y)} below(x, z) && below(y, z) ==> below(join(x, y), z));
axiom (forall x, y: Point :: {step(x), step(y)} below(x, y) ==> below(step(x), step(y)));

procedure Bounds(x: Point, y: Point, z: Point)
  requires below(x, y) && below(y, z);
  ensures below(join(x, y), z);
{
}

procedure Commutes(x: Point, y: Point)
  ensures join(x, y) == join(y, x);
{
  assert below(join(x, y), join(y, x));
  assert below(join(y, x), join(x, y));
}

procedure Grows(x: Point, y: Point)
  requires below(x, y);
  ensures below(step(step(x)), step(step(y)));
{
  assert below(step(x), step(y));
}

// Two points need not be comparable.
procedure Compares(x: Point, y: Point)
  ensures below(x, y) || below(y, x);
{
}
