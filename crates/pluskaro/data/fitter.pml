/* The quarry's case: a driver without a ticket asks, and the loader must not start. */
mtype = { ticket, none };
chan ask = [1] of { mtype };
active proctype driver() { ask!none }
init {
	mtype m;
	ask?m;
	printf("the driver's card is %d\n", m);
	assert(m == ticket)
}
