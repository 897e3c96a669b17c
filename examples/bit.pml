/* The alternating bit protocol over channels that lose nothing; the receiver checks that every message comes once and in order. */
chan data = [2] of { byte, bit };
chan reply = [2] of { bit };

active proctype sender() {
	byte m;
	bit out, in;
	do
	:: m < 5 ->
		data!m, out;
		reply?in;
		if
		:: in == out -> m++; out = 1 - out
		:: else -> skip
		fi
	:: m == 5 -> break
	od
}

active proctype receiver() {
	byte m, next;
	bit got;
	do
	:: data?m, got ->
		assert(m == next);
		next++;
		reply!got
	:: timeout -> break
	od;
	printf("%d messages\n", next)
}
