/* Leader election in a ring of three (Chang and Roberts): a node sends its own
   number on, passes on a number that is larger, and leads if its own comes back. */
mtype = { one, winner };
chan a = [2] of { mtype, byte };
chan b = [2] of { mtype, byte };
chan c = [2] of { mtype, byte };
byte leaders;

proctype node(chan left; chan right; byte mine) {
  byte n;
  right!one(mine);
  do
  :: left?one(n) ->
     if
     :: n > mine -> right!one(n)
     :: n == mine -> leaders++; assert(leaders == 1); printf("%d leads\n", mine); right!winner(mine)
     :: n < mine
     fi
  :: left?winner(n) ->
     if
     :: n == mine
     :: else -> right!winner(n)
     fi;
     break
  od
}

init {
  run node(a, b, 4);
  run node(b, c, 9);
  run node(c, a, 2)
}
