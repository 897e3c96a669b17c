/* A card reader asks the register whether the driver may start the loader.
   The driver's card is no ticket: the loader's last check fails. */
mtype = { ticket, none };
chan ask = [1] of { mtype };

active proctype driver() {
	ask!none
}

init {
	mtype card;
	ask?card;
	printf("the driver's card: %d\n", card);
	assert(card == ticket)
}
