// A lock that is taken and given back, by procedures with contracts that change a global variable.
// z3:     Work verified, Twice verified, Forgets error
// ematch: Work verified, Twice verified, Forgets error

type Thread;
const nobody: Thread;
var holder: Thread;

procedure Take(me: Thread);
  requires holder == nobody && me != nobody;
  modifies holder;
  ensures holder == me;

procedure Give(me: Thread);
  requires holder == me;
  modifies holder;
  ensures holder == nobody;

procedure Work(me: Thread)
  requires holder == nobody && me != nobody;
  modifies holder;
  ensures holder == nobody;
{
  call Take(me);
  call Give(me);
}

procedure Twice(me: Thread, other: Thread)
  requires holder == nobody && me != nobody && other != nobody;
  modifies holder;
  ensures holder == nobody;
{
  while (*)
    invariant holder == nobody;
  {
    call Work(me);
    call Take(other);
    call Give(other);
  }
}

// On one of the ways the lock is not given back.
procedure Forgets(me: Thread, gives: bool)
  requires holder == nobody && me != nobody;
  modifies holder;
  ensures holder == nobody;
{
  call Take(me);
  if (gives) { call Give(me); }
}
