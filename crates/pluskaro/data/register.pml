mtype = { card, open, refuse };
chan ask = [1] of { mtype, byte };
active proctype reader() {
  ask!card(7)
}
init {
  byte ticket;
  ask?card,ticket;
  if :: ticket == 7 -> printf("driver %d isn't refused\n", ticket)
     :: else -> assert(0)
  fi
}
